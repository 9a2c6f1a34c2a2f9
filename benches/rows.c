/* Puts rows such as a server keeps of a token into an SQLite database, with a write-ahead log and synchronous FULL.
   Words: the database's path, how many rows a transaction has, and for how many seconds. Prints rows a second. */
#include <sqlite3.h>
#include <stdint.h>
#include <stdio.h>
#include <stdlib.h>
#include <time.h>

static double now(void)
{
    struct timespec t;
    clock_gettime(CLOCK_MONOTONIC, &t);
    return t.tv_sec + t.tv_nsec / 1e9;
}

static void must(int is_so, sqlite3 *db)
{
    if (!is_so) {
        fprintf(stderr, "rows: %s\n", sqlite3_errmsg(db));
        exit(2);
    }
}

static void run(sqlite3 *db, const char *text)
{
    must(sqlite3_exec(db, text, NULL, NULL, NULL) == SQLITE_OK, db);
}

int main(int count, char **words)
{
    sqlite3 *db = NULL;
    sqlite3_stmt *put = NULL;
    uint64_t digest[4] = {1, 2, 3, 4};
    long rows = 0;
    if (count != 4)
        return 2;
    int at_once = atoi(words[2]);
    double seconds = atof(words[3]);
    must(sqlite3_open(words[1], &db) == SQLITE_OK, db);
    run(db, "PRAGMA journal_mode = WAL; PRAGMA synchronous = FULL;");
    run(db, "CREATE TABLE tokens (digest BLOB PRIMARY KEY, family INTEGER, client INTEGER, owner INTEGER, scope INTEGER,"
            " issued INTEGER, expires INTEGER) WITHOUT ROWID;");
    must(sqlite3_prepare_v2(db, "INSERT INTO tokens VALUES (?, ?, 2, 0, 1, 1000, 1300)", -1, &put, NULL) == SQLITE_OK, db);
    double began = now();
    while (now() - began < seconds) {
        run(db, "BEGIN IMMEDIATE");
        for (int i = 0; i < at_once; i++) {
            for (int word = 0; word < 4; word++)
                digest[word] = digest[word] * 6364136223846793005u + 1442695040888963407u + (uint64_t)rows;
            sqlite3_bind_blob(put, 1, digest, sizeof digest, SQLITE_STATIC);
            sqlite3_bind_int64(put, 2, rows);
            must(sqlite3_step(put) == SQLITE_DONE, db);
            sqlite3_reset(put);
            rows++;
        }
        run(db, "COMMIT");
    }
    printf("%.0f\n", rows / (now() - began));
    sqlite3_finalize(put);
    sqlite3_close(db);
    return 0;
}
