/* The statements of the store over SQL, through SQLite's C library, each prepared once: the peer of pw_sql_bench, with
 * the same words and the same output. `fill` takes one word more: the mode of the journal, wal or delete. `open` is the
 * opening of the file, SQLite's own check of it, and a reading of all rows: the times of the check, and of the rows. */
#include <sqlite3.h>
#include <stdint.h>
#include <stdio.h>
#include <stdlib.h>
#include <string.h>
#include <time.h>

#define FIRST 946684800u
#define APART 300u
#define UPLOAD 64u

static sqlite3 *store;

static void fail(const char *what)
{
    fprintf(stderr, "%s: %s\n", what, sqlite3_errmsg(store));
    exit(1);
}

static void run(const char *text)
{
    if (sqlite3_exec(store, text, NULL, NULL, NULL) != SQLITE_OK)
        fail(text);
}

static sqlite3_stmt *prepared(const char *text)
{
    sqlite3_stmt *statement;
    if (sqlite3_prepare_v2(store, text, -1, &statement, NULL) != SQLITE_OK)
        fail(text);
    return statement;
}

/* Runs a statement with so many whole numbers: whether it gives a row, which it stays on. */
static int shows(sqlite3_stmt *statement, int count, const int64_t *values)
{
    sqlite3_reset(statement);
    for (int i = 0; i < count; i++)
        if (sqlite3_bind_int64(statement, i + 1, values[i]) != SQLITE_OK)
            fail("bind");
    int answer = sqlite3_step(statement);
    if (answer != SQLITE_ROW && answer != SQLITE_DONE)
        fail(sqlite3_sql(statement));
    return answer == SQLITE_ROW;
}

/* Runs a statement that gives no row, to its end. */
static void done(sqlite3_stmt *statement, int count, const int64_t *values)
{
    if (shows(statement, count, values))
        fail("a row");
    sqlite3_reset(statement);
}

static uint64_t nanoseconds(clockid_t clock)
{
    struct timespec at;
    clock_gettime(clock, &at);
    return (uint64_t)at.tv_sec * 1000000000u + (uint64_t)at.tv_nsec;
}

static uint64_t clock_from, processor_from;

static void begin(void)
{
    clock_from = nanoseconds(CLOCK_MONOTONIC);
    processor_from = nanoseconds(CLOCK_PROCESS_CPUTIME_ID);
}

static void tell(void)
{
    uint64_t processor = nanoseconds(CLOCK_PROCESS_CPUTIME_ID) - processor_from;
    printf("%llu %llu ",
        (unsigned long long)(nanoseconds(CLOCK_MONOTONIC) - clock_from), (unsigned long long)processor);
    begin();
}

static const char *const tables[] = {
    "CREATE TABLE office (id INTEGER PRIMARY KEY CHECK (id = 1), version INTEGER NOT NULL, body BLOB NOT NULL) STRICT",
    "CREATE TABLE record_reading (meter INTEGER NOT NULL, register INTEGER NOT NULL, "
    "instant INTEGER NOT NULL, wh INTEGER NOT NULL, "
    "PRIMARY KEY (meter, register, instant, wh)) STRICT",
    "CREATE TABLE record_assignment (meter INTEGER NOT NULL, start INTEGER NOT NULL, owner INTEGER NOT NULL, "
    "PRIMARY KEY (meter, start, owner)) STRICT",
    "CREATE TABLE record_topup (reference TEXT NOT NULL, account INTEGER NOT NULL, cents INTEGER NOT NULL, "
    "instant INTEGER NOT NULL, "
    "PRIMARY KEY (reference, account, cents, instant)) STRICT",
    "CREATE TABLE point (meter INTEGER NOT NULL, register INTEGER NOT NULL, instant INTEGER NOT NULL, "
    "wh INTEGER NOT NULL, "
    "PRIMARY KEY (meter, register, instant)) STRICT",
    "CREATE TABLE start (meter INTEGER NOT NULL, start INTEGER NOT NULL, owner INTEGER NOT NULL, "
    "PRIMARY KEY (meter, start)) STRICT",
    "CREATE TABLE total (owner INTEGER NOT NULL, band INTEGER NOT NULL, direction INTEGER NOT NULL, "
    "wh INTEGER NOT NULL, "
    "PRIMARY KEY (owner, band, direction)) STRICT",
    "CREATE TABLE total_topup (account INTEGER PRIMARY KEY, cents INTEGER NOT NULL) STRICT",
};

static const char *const names[] = {
    "office", "record_reading", "record_assignment", "record_topup", "point", "start", "total", "total_topup",
};

static void fill(uint32_t readings, const char *journal)
{
    char mode[64];
    snprintf(mode, sizeof mode, "PRAGMA journal_mode = %s", journal);
    run(mode);
    run("PRAGMA synchronous = FULL");
    for (int i = 0; i < 8; i++)
        run(tables[i]);
    sqlite3_stmt *opening = prepared("BEGIN"), *closing = prepared("COMMIT");
    sqlite3_stmt *held = prepared("SELECT wh FROM record_reading "
        "WHERE meter = ?1 AND register = ?2 AND instant = ?3 AND wh = ?4");
    sqlite3_stmt *add = prepared("INSERT INTO record_reading (meter, register, instant, wh) VALUES (?1, ?2, ?3, ?4)");
    sqlite3_stmt *take = prepared("DELETE FROM point WHERE meter = ?1 AND register = ?2 AND instant = ?3");
    sqlite3_stmt *put = prepared("INSERT INTO point (meter, register, instant, wh) VALUES (?1, ?2, ?3, ?4)");
    begin();
    for (uint32_t from = 0; from < readings; from += UPLOAD) {
        uint32_t to = from + UPLOAD < readings ? from + UPLOAD : readings;
        done(opening, 0, NULL);
        for (uint32_t place = from; place < to; place++) {
            int64_t values[] = { 0, 1, FIRST + (int64_t)place * APART, (int64_t)place * APART };
            done(held, 4, values);
            done(add, 4, values);
            done(take, 3, values);
            done(put, 4, values);
        }
        done(closing, 0, NULL);
    }
    tell();
}

static void look(uint32_t number)
{
    sqlite3_stmt *count = prepared("SELECT count(*) FROM record_reading");
    if (!shows(count, 0, NULL))
        fail("count");
    uint32_t readings = (uint32_t)sqlite3_column_int64(count, 0);
    sqlite3_finalize(count);
    sqlite3_stmt *before = prepared("SELECT instant, wh FROM point "
        "WHERE meter = ?1 AND register = ?2 AND instant < ?3 ORDER BY instant DESC LIMIT 1");
    uint64_t chance = 1, told = 0;
    begin();
    for (uint32_t i = 0; i < number; i++) {
        chance = chance * 6364136223846793005u + 1442695040888963407u;
        uint32_t place = (uint32_t)(chance >> 33) % readings;
        int64_t values[] = { 0, 1, FIRST + (int64_t)place * APART };
        if (shows(before, 3, values))
            told += (uint64_t)sqlite3_column_int64(before, 1);
    }
    sqlite3_reset(before);
    tell();
    printf("%llu", (unsigned long long)told);
}

/* All rows of a table, each column of a row read. */
static uint64_t rows_of(const char *name)
{
    char text[64];
    snprintf(text, sizeof text, "SELECT * FROM %s", name);
    sqlite3_stmt *all = prepared(text);
    uint64_t told = 0;
    while (sqlite3_step(all) == SQLITE_ROW)
        for (int i = 0; i < sqlite3_column_count(all); i++)
            told += (uint64_t)sqlite3_column_int64(all, i);
    sqlite3_finalize(all);
    return told;
}

static void open_and_check(void)
{
    sqlite3_stmt *check = prepared("PRAGMA integrity_check");
    if (!shows(check, 0, NULL) || strcmp((const char *)sqlite3_column_text(check, 0), "ok") != 0)
        fail("integrity_check");
    sqlite3_finalize(check);
    tell();
    uint64_t told = 0;
    for (int i = 0; i < 8; i++)
        told += rows_of(names[i]);
    tell();
    printf("%llu", (unsigned long long)told);
}

int main(int count, char **words)
{
    if (count < 4)
        return 2;
    begin();
    if (sqlite3_open(words[1], &store) != SQLITE_OK)
        fail(words[1]);
    run("PRAGMA cache_size = 2000"); /* as many pages as powerbook's engine keeps; by itself it would be 2000 KiB */
    uint32_t number = (uint32_t)strtoul(words[3], NULL, 10);
    if (strcmp(words[2], "fill") == 0 && count == 5)
        fill(number, words[4]);
    else if (strcmp(words[2], "look") == 0)
        look(number);
    else if (strcmp(words[2], "open") == 0)
        open_and_check();
    else
        return 2;
    printf("\n");
    if (sqlite3_close_v2(store) != SQLITE_OK)
        fail("close");
    return 0;
}
