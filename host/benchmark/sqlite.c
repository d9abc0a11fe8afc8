/* SQLite in memory, with prepared statements: the transaction that transactions.c makes of tune, as often as takes a while. A row
 * has the fields of lane1 of samples/lanes.txt; a transaction adds to its focus, modulo 4,294,967,296, and is committed. Prints the
 * time of one in nanoseconds.
 *   sqlite plain    for one thread, and no memory is counted
 *   sqlite service  as it is without settings: for several threads, and memory is counted */
#include <sqlite3.h>
#include <stdio.h>
#include <stdlib.h>
#include <string.h>
#include <time.h>

enum { TIMES = 5000, ROUNDS = 60 };

static sqlite3 *database;

static void must(int result, int wanted) {
    if (result != wanted) {
        fprintf(stderr, "%s\n", database == NULL ? sqlite3_errstr(result) : sqlite3_errmsg(database));
        exit(1);
    }
}

static sqlite3_stmt *prepared(const char *statement) {
    sqlite3_stmt *made;
    must(sqlite3_prepare_v3(database, statement, -1, SQLITE_PREPARE_PERSISTENT, &made, NULL), SQLITE_OK);
    return made;
}

static void run(sqlite3_stmt *statement) {
    must(sqlite3_step(statement), SQLITE_DONE);
    must(sqlite3_reset(statement), SQLITE_OK);
}

static double now(void) {
    struct timespec t;
    clock_gettime(CLOCK_MONOTONIC, &t);
    return (double)t.tv_sec * 1e9 + (double)t.tv_nsec;
}

int main(int count, char **words) {
    if (count < 2 || strcmp(words[1], "service") != 0) {
        must(sqlite3_config(SQLITE_CONFIG_SINGLETHREAD), SQLITE_OK);
        must(sqlite3_config(SQLITE_CONFIG_MEMSTATUS, 0), SQLITE_OK);
    }
    must(sqlite3_open(":memory:", &database), SQLITE_OK);
    run(prepared("create table lane (number integer primary key, cycles integer, clusters integer, focus integer)"));
    run(prepared("insert into lane values (1, 0, 0, 0)"));
    sqlite3_stmt *open = prepared("begin immediate"), *commit = prepared("commit");
    sqlite3_stmt *tune = prepared("update lane set focus = (focus + ?2) & 4294967295 where number = ?1");
    /* What is set can be undone. */
    run(open);
    run(prepared("update lane set focus = 7"));
    run(prepared("rollback"));
    double least = 1e18;
    for (int round = 0; round < ROUNDS; round++) {
        double from = now();
        for (int k = 0; k < TIMES; k++) {
            run(open);
            must(sqlite3_bind_int64(tune, 1, 1), SQLITE_OK);
            must(sqlite3_bind_int64(tune, 2, 5), SQLITE_OK);
            run(tune);
            run(commit);
        }
        double time = (now() - from) / TIMES;
        least = time < least ? time : least;
    }
    sqlite3_stmt *focus = prepared("select focus from lane");
    must(sqlite3_step(focus), SQLITE_ROW);
    must(sqlite3_column_int(focus, 0), 5 * TIMES * ROUNDS);
    printf("%.1f\n", least);
    return 0;
}
