/* Berkeley DB's lock subsystem with a conflict matrix: the two locks of a send to an object, and their release, as often as
 * takes a while. Prints the time of one in nanoseconds. The modes are those of class lane of samples/lanes.txt: a method on
 * an object, and on a class a method with the flag that says whether all its objects are meant.
 *   berkeley plain      one locker, an environment for one thread
 *   berkeley lockers    a locker of its own for each transaction, made and freed with it
 *   berkeley threads    one locker, an environment for several threads
 *   berkeley service    a locker for each transaction, for several threads
 *   berkeley processes  a locker for each transaction, for several processes: the environment is in files
 *   berkeley waiting    a locker holds a class with all its objects, and seven others in threads of their own, each with the lock of an
 *                       object, wait for their lock on the class. Prints two times: that of the call which puts the holder's lock and
 *                       grants theirs, and that until the last of the seven has gone on with it */
#include <db.h>
#include <pthread.h>
#include <stdio.h>
#include <stdlib.h>
#include <string.h>
#include <time.h>
#include <unistd.h>

/* Our modes come after the ones that Berkeley DB gives a meaning of its own. */
enum { METHODS = 3, FIRST = DB_LOCK_WWRITE + 1, MODES = FIRST + 3 * METHODS, TIMES = 30000 };

static const int commute[METHODS][METHODS] = {{0, 1, 0}, {1, 1, 1}, {0, 1, 0}};

static void must(int result) {
    if (result != 0) {
        fprintf(stderr, "%s\n", db_strerror(result));
        exit(1);
    }
}

/* A method on an object (0), on a class without the flag (1) or with it (2). */
static db_lockmode_t mode(int kind, int method) { return (db_lockmode_t)(FIRST + kind * METHODS + method); }

static int clash(int held, int wanted) {
    if (held < FIRST || wanted < FIRST)
        return 0;
    int kind = (held - FIRST) / METHODS, other = (wanted - FIRST) / METHODS;
    if ((kind == 0) != (other == 0) || (kind == 1 && other == 1))
        return 0;
    return !commute[(held - FIRST) % METHODS][(wanted - FIRST) % METHODS];
}

static double now(void) {
    struct timespec t;
    clock_gettime(CLOCK_MONOTONIC, &t);
    return (double)t.tv_sec * 1e9 + (double)t.tv_nsec;
}

static DB_ENV *opened(const char *home, u_int32_t flags) {
    uint8_t conflicts[MODES * MODES];
    for (int held = 0; held < MODES; held++)
        for (int wanted = 0; wanted < MODES; wanted++)
            conflicts[held * MODES + wanted] = (uint8_t)clash(held, wanted);
    DB_ENV *env;
    must(db_env_create(&env, 0));
    must(env->set_lk_conflicts(env, conflicts, MODES));
    must(env->open(env, home, DB_CREATE | DB_INIT_LOCK | flags, 0));
    return env;
}

enum { WAITERS = 7, HANDOVERS = 300 };

static DB_ENV *shared;
static DBT lane;
/* All threads meet when the holder has its lock, when the waiters have theirs, and when they have put them. */
static pthread_barrier_t held, granted, put;
static double granted_at[WAITERS];

static void meet(pthread_barrier_t *barrier) {
    int result = pthread_barrier_wait(barrier);
    must(result == PTHREAD_BARRIER_SERIAL_THREAD ? 0 : result);
}

/* A shot on an object of its own, as often as there are rounds. */
static void *waiter(void *number) {
    int k = (int)(intptr_t)number;
    char name[] = "lane0";
    name[4] = (char)('0' + k);
    DBT object;
    memset(&object, 0, sizeof object);
    object.data = name, object.size = 5;
    DB_LOCKREQ wanted[3];
    memset(wanted, 0, sizeof wanted);
    wanted[0].op = DB_LOCK_GET, wanted[0].obj = &object, wanted[0].mode = mode(0, 0);
    wanted[1].op = DB_LOCK_GET, wanted[1].obj = &lane, wanted[1].mode = mode(1, 0);
    wanted[2].op = DB_LOCK_PUT_ALL;
    u_int32_t locker;
    must(shared->lock_id(shared, &locker));
    for (int round = 0; round < HANDOVERS; round++) {
        meet(&held);
        must(shared->lock_vec(shared, locker, 0, wanted, 2, NULL));
        granted_at[k] = now();
        meet(&granted);
        must(shared->lock_vec(shared, locker, 0, wanted + 2, 1, NULL));
        meet(&put);
    }
    return NULL;
}

/* How many requests have had to wait so far. */
static uintmax_t waits(void) {
    DB_LOCK_STAT *found;
    must(shared->lock_stat(shared, &found, 0));
    uintmax_t count = found->st_lock_wait;
    free(found);
    return count;
}

static void hand_over(void) {
    shared = opened(NULL, DB_PRIVATE | DB_THREAD);
    lane.data = "lane", lane.size = 4;
    u_int32_t locker;
    must(shared->lock_id(shared, &locker));
    must(pthread_barrier_init(&held, NULL, WAITERS + 1));
    must(pthread_barrier_init(&granted, NULL, WAITERS + 1));
    must(pthread_barrier_init(&put, NULL, WAITERS + 1));
    pthread_t threads[WAITERS];
    for (int k = 0; k < WAITERS; k++)
        must(pthread_create(&threads[k], NULL, waiter, (void *)(intptr_t)k));
    double least_put = 1e18, least_all = 1e18;
    for (int round = 0; round < HANDOVERS; round++) {
        DB_LOCK whole;
        must(shared->lock_get(shared, locker, DB_LOCK_NOWAIT, &lane, mode(2, 0), &whole));
        uintmax_t before = waits();
        meet(&held);
        while (waits() < before + WAITERS)
            usleep(100);
        usleep(1000);
        double from = now();
        must(shared->lock_put(shared, &whole));
        double time = now() - from;
        least_put = time < least_put ? time : least_put;
        meet(&granted);
        double last = 0;
        for (int k = 0; k < WAITERS; k++)
            last = granted_at[k] > last ? granted_at[k] : last;
        least_all = last - from < least_all ? last - from : least_all;
        meet(&put);
    }
    for (int k = 0; k < WAITERS; k++)
        must(pthread_join(threads[k], NULL));
    printf("%.1f %.1f\n", least_put, least_all);
    must(shared->close(shared, 0));
}

int main(int count, char **words) {
    const char *word = count > 1 ? words[1] : "plain";
    if (strcmp(word, "waiting") == 0) {
        hand_over();
        return 0;
    }
    int processes = strcmp(word, "processes") == 0;
    int service = strcmp(word, "service") == 0 || processes;
    int lockers = strcmp(word, "lockers") == 0 || service;
    int threads = strcmp(word, "threads") == 0 || service;
    char home[] = "berkeley-XXXXXX";
    if (processes && mkdtemp(home) == NULL) {
        perror("mkdtemp");
        return 1;
    }
    DB_ENV *env = opened(processes ? home : NULL, (processes ? 0 : DB_PRIVATE) | (threads ? DB_THREAD : 0));
    u_int32_t locker, other;
    must(env->lock_id(env, &locker));
    must(env->lock_id(env, &other));
    DBT object, class;
    memset(&object, 0, sizeof object);
    memset(&class, 0, sizeof class);
    object.data = "lane1", object.size = 5;
    class.data = "lane", class.size = 4;
    DB_LOCKREQ wanted[3];
    memset(wanted, 0, sizeof wanted);
    wanted[0].op = DB_LOCK_GET, wanted[0].obj = &object, wanted[0].mode = mode(0, 1);
    wanted[1].op = DB_LOCK_GET, wanted[1].obj = &class, wanted[1].mode = mode(1, 1);
    wanted[2].op = DB_LOCK_PUT_ALL;
    /* The matrix is in force: shot (method 0) and plot (1) go together, tune (2) does not. */
    DB_LOCK shot, plot, tune;
    must(env->lock_get(env, other, DB_LOCK_NOWAIT, &object, mode(0, 0), &shot));
    must(env->lock_get(env, locker, DB_LOCK_NOWAIT, &object, mode(0, 1), &plot));
    if (env->lock_get(env, locker, DB_LOCK_NOWAIT, &object, mode(0, 2), &tune) != DB_LOCK_NOTGRANTED) {
        fprintf(stderr, "the conflict matrix is not in force\n");
        return 1;
    }
    must(env->lock_put(env, &shot));
    must(env->lock_put(env, &plot));
    double least = 1e18;
    for (int round = 0; round < 60; round++) {
        double from = now();
        for (int k = 0; k < TIMES; k++) {
            if (lockers)
                must(env->lock_id(env, &locker));
            must(env->lock_vec(env, locker, DB_LOCK_NOWAIT, wanted, 2, NULL));
            must(env->lock_vec(env, locker, 0, wanted + 2, 1, NULL));
            if (lockers)
                must(env->lock_id_free(env, locker));
        }
        double time = (now() - from) / TIMES;
        least = time < least ? time : least;
    }
    printf("%.1f\n", least);
    must(env->close(env, 0));
    if (processes) {
        must(db_env_create(&env, 0));
        must(env->remove(env, home, 0));
        return rmdir(home);
    }
    return 0;
}
