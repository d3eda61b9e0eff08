/* Running totals in a store that others use.

   stores FILE KEYS SIZE EPOCHS GROUP

   It fills the store with KEYS keys. Then it takes EPOCHS epochs of SIZE records, each of which adds to the total of its key and to the count of its
   records; GROUP epochs are one transaction, which is synced. It prints the seconds of the second part. It is compiled with one of -DSQLITE,
   -DROCKSDB and -DLMDB, and that one's library.

   sqlite3 has a write-ahead log and synchronous=FULL, and one statement that adds. RocksDB takes one WriteBatch a transaction, whose log is synced; what
   a transaction has changed so far stands in an array beside it. LMDB reads and puts within its transaction. */
#include <stdint.h>
#include <stdio.h>
#include <stdlib.h>
#include <string.h>
#include <time.h>

typedef struct { int64_t total, count; } Total;

static void die(const char *what) {
    fprintf(stderr, "stores: %s\n", what);
    exit(1);
}

#if defined(SQLITE)
#include <sqlite3.h>

static sqlite3 *base;
static sqlite3_stmt *adding;

static void run(const char *text) {
    if (sqlite3_exec(base, text, NULL, NULL, NULL) != SQLITE_OK) die(sqlite3_errmsg(base));
}

static void open_store(const char *file, uint64_t keys) {
    (void)keys;
    if (sqlite3_open(file, &base) != SQLITE_OK) die("open");
    run("PRAGMA journal_mode=WAL");
    run("PRAGMA synchronous=FULL");
    run("CREATE TABLE totals (key INTEGER PRIMARY KEY, total INTEGER, count INTEGER)");
    const char *text = "INSERT INTO totals VALUES (?, ?, 1) ON CONFLICT (key) DO UPDATE SET total = total + excluded.total, count = count + 1";
    if (sqlite3_prepare_v2(base, text, -1, &adding, NULL) != SQLITE_OK) die(sqlite3_errmsg(base));
}

static void begin(void) { run("BEGIN"); }

static void add(uint64_t key, int64_t value) {
    sqlite3_bind_int64(adding, 1, (int64_t)key);
    sqlite3_bind_int64(adding, 2, value);
    if (sqlite3_step(adding) != SQLITE_DONE) die(sqlite3_errmsg(base));
    sqlite3_reset(adding);
}

static void commit(void) { run("COMMIT"); }

#elif defined(ROCKSDB)
#include <rocksdb/c.h>

static rocksdb_t *base;
static rocksdb_writeoptions_t *synced;
static rocksdb_readoptions_t *reading;
static rocksdb_writebatch_t *batch;
/* The totals that the transaction has changed, by their keys; the number of the transaction that changed one; and which keys it has changed. */
static Total *totals;
static uint64_t *changed_in, *changed, transaction, changes;

static void check(char *error) {
    if (error != NULL) die(error);
}

static void open_store(const char *file, uint64_t keys) {
    char *error = NULL;
    rocksdb_options_t *options = rocksdb_options_create();
    rocksdb_options_set_create_if_missing(options, 1);
    base = rocksdb_open(options, file, &error);
    check(error);
    synced = rocksdb_writeoptions_create();
    rocksdb_writeoptions_set_sync(synced, 1);
    reading = rocksdb_readoptions_create();
    batch = rocksdb_writebatch_create();
    totals = calloc(keys, sizeof *totals);
    changed_in = calloc(keys, sizeof *changed_in);
    changed = calloc(keys, sizeof *changed);
    if (totals == NULL || changed_in == NULL || changed == NULL) die("memory");
}

static void begin(void) {
    transaction += 1;
    changes = 0;
}

static Total stored(uint64_t key) {
    char *error = NULL;
    size_t length = 0;
    Total total = {0, 0};
    char *value = rocksdb_get(base, reading, (const char *)&key, sizeof key, &length, &error);
    check(error);
    if (value != NULL) memcpy(&total, value, sizeof total);
    free(value);
    return total;
}

static void add(uint64_t key, int64_t value) {
    if (changed_in[key] != transaction) {
        changed_in[key] = transaction;
        changed[changes++] = key;
        totals[key] = stored(key);
    }
    totals[key].total += value;
    totals[key].count += 1;
}

static void commit(void) {
    char *error = NULL;
    rocksdb_writebatch_clear(batch);
    for (uint64_t at = 0; at < changes; at++)
        rocksdb_writebatch_put(batch, (const char *)&changed[at], sizeof changed[at], (const char *)&totals[changed[at]], sizeof(Total));
    rocksdb_write(base, synced, batch, &error);
    check(error);
}

#elif defined(LMDB)
#include <lmdb.h>

static MDB_env *base;
static MDB_txn *transaction;
static MDB_dbi table;

static void check(int status) {
    if (status != MDB_SUCCESS) die(mdb_strerror(status));
}

static void open_store(const char *file, uint64_t keys) {
    (void)keys;
    check(mdb_env_create(&base));
    check(mdb_env_set_mapsize(base, (size_t)1 << 34));
    check(mdb_env_open(base, file, MDB_NOSUBDIR, 0644));
    check(mdb_txn_begin(base, NULL, 0, &transaction));
    check(mdb_dbi_open(transaction, NULL, MDB_INTEGERKEY | MDB_CREATE, &table));
    check(mdb_txn_commit(transaction));
}

static void begin(void) { check(mdb_txn_begin(base, NULL, 0, &transaction)); }

static void add(uint64_t key, int64_t value) {
    MDB_val name = {sizeof key, &key}, stored;
    Total total = {0, 0};
    int status = mdb_get(transaction, table, &name, &stored);
    if (status == MDB_SUCCESS) memcpy(&total, stored.mv_data, sizeof total);
    else if (status != MDB_NOTFOUND) check(status);
    total.total += value;
    total.count += 1;
    stored.mv_size = sizeof total;
    stored.mv_data = &total;
    check(mdb_put(transaction, table, &name, &stored, 0));
}

static void commit(void) { check(mdb_txn_commit(transaction)); }
#endif

static double seconds(void) {
    struct timespec now;
    clock_gettime(CLOCK_MONOTONIC, &now);
    return (double)now.tv_sec + (double)now.tv_nsec * 1e-9;
}

int main(int count, char **words) {
    if (count != 6) die("FILE KEYS SIZE EPOCHS GROUP");
    uint64_t keys = strtoull(words[2], NULL, 10), size = strtoull(words[3], NULL, 10), epochs = strtoull(words[4], NULL, 10), group = strtoull(words[5], NULL, 10);
    open_store(words[1], keys);
    begin();
    for (uint64_t key = 0; key < keys; key++) add(key, 1);
    commit();
    double started = seconds();
    for (uint64_t epoch = 0; epoch < epochs; epoch++) {
        if (epoch % group == 0) begin();
        for (uint64_t at = 0; at < size; at++) add((epoch * size + at) * 7919 % keys, (int64_t)(at % 7) - 3);
        if (epoch % group == group - 1 || epoch == epochs - 1) commit();
    }
    printf("%.6f\n", seconds() - started);
    return 0;
}
