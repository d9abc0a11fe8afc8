/* The lock machine's calls, made as berkeley.c makes Berkeley DB's: a send to an object takes two locks, and commit frees them.
 * The method is an inherited one, as plot of class lane is in samples/lanes.txt. Prints nanoseconds, the least of many rounds:
 * for send and commit each by itself, as what twice as many calls take longer, so that the clock's own time is not counted
 * (berkeley.c looks at it once in 30,000); for a whole transaction (send, the step that ends the message, commit); and for the
 * one that sqlite.c makes: tune of the class text in the file LANES, which is samples/lanes.txt (send, two steps, commit).
 *   transactions alone LANES    the calls alone
 *   transactions threads LANES  each call between the lock and the unlock of a mutex, as several threads would make it */
#include "cishmolaq.h"
#include <pthread.h>
#include <stdio.h>
#include <stdlib.h>
#include <string.h>
#include <time.h>
#include <unistd.h>

/* Several machines, and half as many; all that they touch fits the processor's first cache. One more is the class text's. */
enum { MACHINES = 6, HALF = MACHINES / 2, LANES = MACHINES, SLOTS = 8, CALLS = MACHINES * SLOTS, ROUNDS = 40, TIMES = 1000 };

static const char text[] = "class run\nmethod shot\nend\nmethod plot\nend\nclass lane : run\nobject lane1 lane\n";
static const size_t length = sizeof text - 1;
static uint8_t lanes[CISHMOLAQ_LONGEST_TEXT];
static size_t lanes_length;
static uint32_t states[MACHINES + 1][CISHMOLAQ_STATE_WORDS], values[1], lane1[3];
static pthread_mutex_t mutex = PTHREAD_MUTEX_INITIALIZER;

static inline void must(uint32_t answer, uint32_t wanted) {
    if (answer != wanted) {
        fprintf(stderr, "a call answered %u, not %u\n", answer, wanted);
        exit(1);
    }
}

#define LENT (const uint8_t *)text, length, states[machine], CISHMOLAQ_STATE_WORDS, values, 0
#define LENT_LANES lanes, lanes_length, states[machine], CISHMOLAQ_STATE_WORDS, lane1, 3

/* A call on a slot of a machine with what it must answer: alone, and between the lock and the unlock of the mutex. */
#define CALL(name, call, answer)                                                                                         \
    static inline void alone_##name(int machine, uint32_t slot) {                                                        \
        uint32_t detail;                                                                                                 \
        must(call, answer);                                                                                              \
    }                                                                                                                    \
    static inline void locked_##name(int machine, uint32_t slot) {                                                       \
        pthread_mutex_lock(&mutex);                                                                                      \
        alone_##name(machine, slot);                                                                                     \
        pthread_mutex_unlock(&mutex);                                                                                    \
    }

CALL(send, cishmolaq_send(LENT, slot, CISHMOLAQ_OBJECT, 0, 1, 3, &detail), 0)
CALL(step, cishmolaq_step(LENT, slot, &detail), 2)
CALL(commit, cishmolaq_commit(LENT, slot, &detail), 0)
CALL(send_tune, cishmolaq_send(LENT_LANES, slot, CISHMOLAQ_OBJECT, 0, 2, 5, &detail), 0)
CALL(set_focus, cishmolaq_step(LENT_LANES, slot, &detail), 1)
CALL(end_tune, cishmolaq_step(LENT_LANES, slot, &detail), 2)
CALL(commit_tune, cishmolaq_commit(LENT_LANES, slot, &detail), 0)

/* A second thread that does nothing: with it the C library's mutex does its whole work. */
static void *wait_for_ever(void *nothing) {
    for (;;)
        pause();
    return nothing;
}

static double now(void) {
    struct timespec t;
    clock_gettime(CLOCK_MONOTONIC, &t);
    return (double)t.tv_sec * 1e9 + (double)t.tv_nsec;
}

static double least(double a, double b) { return a < b ? a : b; }

/* The time of a call on every slot of so many machines. */
#define ALL(call, machines, time)                                                                                        \
    do {                                                                                                                 \
        double from = now();                                                                                             \
        for (int machine = 0; machine < machines; machine++)                                                             \
            for (uint32_t slot = 0; slot < SLOTS; slot++)                                                                \
                call(machine, slot);                                                                                     \
        time += now() - from;                                                                                            \
    } while (0)

/* The times of all sends and of all commits, in a round of transactions on so many machines. */
#define ROUND(way, machines, sends, commits)                                                                             \
    do {                                                                                                                 \
        double sent = 0, committed = 0, other = 0;                                                                       \
        for (int k = 0; k < TIMES; k++) {                                                                                \
            ALL(way##_send, machines, sent);                                                                             \
            ALL(way##_step, machines, other);                                                                            \
            ALL(way##_commit, machines, committed);                                                                      \
        }                                                                                                                \
        sends = least(sends, sent / TIMES);                                                                              \
        commits = least(commits, committed / TIMES);                                                                     \
    } while (0)

/* The time of one transaction, of many. */
#define WHOLE(transaction, time)                                                                                         \
    do {                                                                                                                 \
        double from = now();                                                                                             \
        for (int k = 0; k < TIMES * CALLS; k++) {                                                                        \
            transaction;                                                                                                 \
        }                                                                                                                \
        time = least(time, (now() - from) / TIMES / CALLS);                                                              \
    } while (0)

/* Prints the times of calls made in a way: alone, or locked. */
#define MEASURE(way)                                                                                                     \
    do {                                                                                                                 \
        double sends = 1e18, commits = 1e18, half_sends = 1e18, half_commits = 1e18, whole = 1e18, tune = 1e18;          \
        for (int round = 0; round < ROUNDS; round++) {                                                                   \
            ROUND(way, MACHINES, sends, commits);                                                                        \
            ROUND(way, HALF, half_sends, half_commits);                                                                  \
            WHOLE(way##_send(0, 0); way##_step(0, 0); way##_commit(0, 0), whole);                                        \
            WHOLE(way##_send_tune(LANES, 0); way##_set_focus(LANES, 0); way##_end_tune(LANES, 0);                        \
                  way##_commit_tune(LANES, 0), tune);                                                                    \
        }                                                                                                                \
        double more = (MACHINES - HALF) * SLOTS;                                                                         \
        printf("%.1f %.1f %.1f %.1f\n", (sends - half_sends) / more, (commits - half_commits) / more, whole, tune);      \
    } while (0)

int main(int count, char **words) {
    FILE *file = count == 3 ? fopen(words[2], "rb") : NULL;
    if (file == NULL) {
        fprintf(stderr, "transactions alone|threads LANES\n");
        return 2;
    }
    lanes_length = fread(lanes, 1, sizeof lanes, file);
    fclose(file);
    size_t line;
    for (int machine = 0; machine < MACHINES; machine++)
        must(cishmolaq_start((const uint8_t *)text, length, values, 0, states[machine], CISHMOLAQ_STATE_WORDS, &line), 0);
    must(cishmolaq_start(lanes, lanes_length, lane1, 3, states[LANES], CISHMOLAQ_STATE_WORDS, &line), 0);
    if (strcmp(words[1], "threads") == 0) {
        pthread_t thread;
        if (pthread_create(&thread, NULL, wait_for_ever, NULL) != 0)
            return 1;
        MEASURE(locked);
    } else {
        MEASURE(alone);
    }
    must(lane1[2], (uint32_t)(5u * ROUNDS * TIMES * CALLS));
    return 0;
}
