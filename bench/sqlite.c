// Stores the commands of standard input in an SQLite database, sixteen a transaction, in WAL mode with synchronous=FULL.
// Prints the seconds that it took, without the making of the table.
//   sqlite DATABASE < COMMANDS
//   sqlite --version
#include <sqlite3.h>
#include <stdio.h>
#include <stdlib.h>
#include <string.h>
#include <time.h>

enum { PAGE = 16 };

static double now(void) {
    struct timespec t;
    clock_gettime(CLOCK_MONOTONIC, &t);
    return t.tv_sec + t.tv_nsec / 1e9;
}

static void check(sqlite3 *db, int status, int wanted) {
    if (status == wanted)
        return;
    fprintf(stderr, "sqlite: %s\n", sqlite3_errmsg(db));
    exit(1);
}

static sqlite3 *open_store(const char *name) {
    sqlite3 *db = 0;
    int status = sqlite3_open(name, &db);
    check(db, status, SQLITE_OK);
    check(db, sqlite3_exec(db, "PRAGMA journal_mode=WAL; PRAGMA synchronous=FULL;"
        "CREATE TABLE commands(number INTEGER PRIMARY KEY, kind TEXT, member INT, side TEXT, price INT, lots INT, cancels INT)",
        0, 0, 0), SQLITE_OK);
    return db;
}

// A line as a row: `enter MEMBER SIDE PRICE LOTS`, or `cancel MEMBER ORDER`.
static void bind(sqlite3_stmt *row, const char *line) {
    char kind[8] = "", side[8] = "";
    int member = 0, price = 0, lots = 0;
    long long order = 0;
    if (sscanf(line, "enter %d %7s %d %d", &member, side, &price, &lots) == 4)
        strcpy(kind, "enter");
    else if (sscanf(line, "cancel %d %lld", &member, &order) == 2)
        strcpy(kind, "cancel");
    sqlite3_bind_text(row, 1, kind, -1, SQLITE_TRANSIENT);
    sqlite3_bind_int(row, 2, member);
    sqlite3_bind_text(row, 3, side, -1, SQLITE_TRANSIENT);
    sqlite3_bind_int(row, 4, price);
    sqlite3_bind_int(row, 5, lots);
    sqlite3_bind_int64(row, 6, order);
}

static void store(sqlite3 *db) {
    sqlite3_stmt *row, *begin, *commit;
    char line[256];
    check(db, sqlite3_prepare_v2(db,
        "INSERT INTO commands(kind, member, side, price, lots, cancels) VALUES(?,?,?,?,?,?)", -1, &row, 0), SQLITE_OK);
    check(db, sqlite3_prepare_v2(db, "BEGIN", -1, &begin, 0), SQLITE_OK);
    check(db, sqlite3_prepare_v2(db, "COMMIT", -1, &commit, 0), SQLITE_OK);
    for (long n = 0; fgets(line, sizeof line, stdin); n++) {
        if (n % PAGE == 0) {
            check(db, sqlite3_step(begin), SQLITE_DONE);
            sqlite3_reset(begin);
        }
        bind(row, line);
        check(db, sqlite3_step(row), SQLITE_DONE);
        sqlite3_reset(row);
        if (n % PAGE == PAGE - 1) {
            check(db, sqlite3_step(commit), SQLITE_DONE);
            sqlite3_reset(commit);
        }
    }
    if (!sqlite3_get_autocommit(db))
        check(db, sqlite3_step(commit), SQLITE_DONE);
    sqlite3_finalize(row);
    sqlite3_finalize(begin);
    sqlite3_finalize(commit);
}

int main(int count, char **words) {
    if (count != 2) {
        fprintf(stderr, "usage: sqlite DATABASE < COMMANDS, or sqlite --version\n");
        return 1;
    }
    if (!strcmp(words[1], "--version")) {
        puts(sqlite3_libversion());
        return 0;
    }
    sqlite3 *db = open_store(words[1]);
    double start = now();
    store(db);
    printf("%.9f\n", now() - start);
    return sqlite3_close(db) != SQLITE_OK;
}
