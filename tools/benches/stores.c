/* Counting by threads in several stores, for tools/bench, which builds and runs it:
 *
 *     stores ENGINE FILE THREADS GROUP SECONDS APART
 * Each thread adds one to a counter of its own and to one that all have in common (APART is 0), or to two of its own, whose numbers, like those of
 * the next thread, are APART numbers apart. Behind every GROUP sections it waits until they are durable; with 0 it never waits (Zelamiku alone). A
 * line says how many sections a second were durable, the processor time of one, and of all waits the median, 99 and 99.9 in a hundred, in
 * microseconds. With the variable SYNCS, whose file syncs.c counts in, it also says how many syncs a section had, and the median of their
 * microseconds.
 *
 * zelamiku: a section of two monitors.    sqlite: two UPDATEs, a transaction a group, in WAL mode with synchronous=FULL, by turns.
 * lmdb: two gets and puts, a synced transaction a group.    rocksdb: two GetForUpdates and Puts, a transaction a group, sync=true.
 * redis: a server with appendfsync=always, and a connection for each thread: two INCRs, a group from MULTI to EXEC. */
#define _GNU_SOURCE
#include <errno.h>
#include <fcntl.h>
#include <inttypes.h>
#include <pthread.h>
#include <signal.h>
#include <stdatomic.h>
#include <stdio.h>
#include <stdlib.h>
#include <string.h>
#include <sys/mman.h>
#include <sys/prctl.h>
#include <sys/resource.h>
#include <sys/socket.h>
#include <sys/stat.h>
#include <sys/un.h>
#include <sys/wait.h>
#include <time.h>
#include <unistd.h>
#include "syncs.h"
#include "zelamiku.h"

enum { MOST = 32, MOST_WAITS = 1 << 20 };

static const char *path;
static uint32_t threads, distance, count;
static uint64_t group;
static atomic_bool stopping;
static pthread_barrier_t start;
static pthread_mutex_t turn = PTHREAD_MUTEX_INITIALIZER;

static void ask(bool is_done, const char *what, const char *why) {
    if (is_done) return;
    fprintf(stderr, "%s: %s\n", what, why);
    exit(2);
}

static void must(bool is_done, const char *what) { ask(is_done, what, strerror(errno)); }

/* The two counters of a thread, which are numbered from 0. */
static uint32_t first_of(uint32_t own) { return distance == 0 ? own + 1 : 2 * own * distance; }
static uint32_t second_of(uint32_t own) { return distance == 0 ? 0 : first_of(own) + distance; }

/* ---- zelamiku ---- */

static zelamiku_heap heap;

static void z(zelamiku_status status, const char *what) { ask(status == ZELAMIKU_OK, what, zelamiku_status_text(status)); }

static uint32_t atomic_sectors; /* of the plan */

static void z_open(void) {
    zelamiku_field *fields = calloc(count, sizeof *fields);
    must(fields != NULL, "fields");
    for (uint32_t i = 0; i < count; i++) fields[i] = (zelamiku_field){.owner = i, .guard = i};
    zelamiku_plan plan = {.size = sizeof(zelamiku_plan), .fields = fields, .count = count, .objects = count, .lanes = threads, .atomic_sectors = atomic_sectors};
    z(zelamiku_heap_open(&heap, path, &plan, NULL), "open");
    free(fields);
}

static void j_open(void) {
    atomic_sectors = 1;
    z_open();
}

static void *z_begin(void) {
    zelamiku_thread *thread = malloc(sizeof *thread);
    must(thread != NULL, "thread");
    z(zelamiku_thread_begin(thread, heap), "begin");
    return thread;
}

static void z_add(zelamiku_thread thread, uint32_t field) {
    uint64_t value = 0;
    z(zelamiku_thread_load(thread, field, &value), "load");
    z(zelamiku_thread_store(thread, field, value + 1), "store");
}

static void z_count(void *use, uint32_t a, uint32_t b, uint64_t sections) {
    zelamiku_thread thread = *(zelamiku_thread *)use;
    for (uint64_t i = 0; i < sections; i++) {
        z(zelamiku_thread_enter(thread, a), "enter");
        z(zelamiku_thread_enter(thread, b), "enter");
        z_add(thread, a);
        z_add(thread, b);
        z(zelamiku_thread_exit(thread, b), "exit");
        z(zelamiku_thread_exit(thread, a), "exit");
    }
    if (group > 0) z(zelamiku_thread_await(thread), "await");
}

static void z_end(void *use) { z(zelamiku_thread_end(*(zelamiku_thread *)use), "end"); }
static void z_close(void) { z(zelamiku_heap_close(heap), "close"); }

/* ---- SQLite ---- */

#ifdef WITH_SQLITE
#include <sqlite3.h>

typedef struct {
    sqlite3 *base;
    sqlite3_stmt *begin, *add, *commit;
} connection;

static void q(connection *use, int answer, const char *what) {
    ask(answer == SQLITE_OK || answer == SQLITE_DONE || answer == SQLITE_ROW, what, sqlite3_errmsg(use->base));
}

static sqlite3_stmt *q_prepare(connection *use, const char *text) {
    sqlite3_stmt *made = NULL;
    q(use, sqlite3_prepare_v2(use->base, text, -1, &made, NULL), text);
    return made;
}

static void *q_begin(void) {
    connection *use = calloc(1, sizeof *use);
    must(use != NULL, "connection");
    q(use, sqlite3_open(path, &use->base), "open");
    q(use, sqlite3_exec(use->base, "PRAGMA busy_timeout=60000; PRAGMA journal_mode=WAL; PRAGMA synchronous=FULL", NULL, NULL, NULL), "pragma");
    use->begin = q_prepare(use, "BEGIN IMMEDIATE");
    use->add = q_prepare(use, "UPDATE counters SET value = value + 1 WHERE id = ?");
    use->commit = q_prepare(use, "COMMIT");
    return use;
}

static void q_step(connection *use, sqlite3_stmt *statement) {
    q(use, sqlite3_step(statement), "step");
    q(use, sqlite3_reset(statement), "reset");
}

static void q_add(connection *use, uint32_t id) {
    q(use, sqlite3_bind_int(use->add, 1, (int)id), "bind");
    q_step(use, use->add);
}

static void q_count(void *data, uint32_t a, uint32_t b, uint64_t sections) {
    connection *use = data;
    pthread_mutex_lock(&turn);
    q_step(use, use->begin);
    for (uint64_t i = 0; i < sections; i++) q_add(use, a), q_add(use, b);
    q_step(use, use->commit);
    pthread_mutex_unlock(&turn);
}

static void q_end(void *use) { sqlite3_close_v2(((connection *)use)->base); }

static void q_open(void) {
    connection first = {0};
    char text[300];
    snprintf(text, sizeof text,
             "PRAGMA journal_mode=WAL; CREATE TABLE counters(id INTEGER PRIMARY KEY, value INTEGER); WITH RECURSIVE n(i) AS (SELECT 0 UNION ALL "
             "SELECT i + 1 FROM n WHERE i < %" PRIu32 ") INSERT INTO counters SELECT i, 0 FROM n", count - 1);
    q(&first, sqlite3_open(path, &first.base), "open");
    q(&first, sqlite3_exec(first.base, text, NULL, NULL, NULL), "create");
    sqlite3_close(first.base);
}
#endif

/* ---- LMDB ---- */

#ifdef WITH_LMDB
#include <lmdb.h>

static MDB_env *env;
static MDB_dbi base;

static void l(int answer, const char *what) { ask(answer == 0, what, mdb_strerror(answer)); }

static void l_put(MDB_txn *txn, uint32_t id, uint64_t number) {
    MDB_val key = {sizeof id, &id}, value = {sizeof number, &number};
    l(mdb_put(txn, base, &key, &value, 0), "put");
}

static void l_open(void) {
    MDB_txn *txn;
    l(mdb_env_create(&env), "env");
    l(mdb_env_set_mapsize(env, 1 << 20), "size");
    l(mdb_env_open(env, path, MDB_NOSUBDIR, 0644), "open");
    l(mdb_txn_begin(env, NULL, 0, &txn), "begin");
    l(mdb_dbi_open(txn, NULL, MDB_INTEGERKEY, &base), "base");
    for (uint32_t i = 0; i < count; i++) l_put(txn, i, 0);
    l(mdb_txn_commit(txn), "commit");
}

static void l_add(MDB_txn *txn, uint32_t id) {
    MDB_val key = {sizeof id, &id}, value;
    uint64_t number;
    l(mdb_get(txn, base, &key, &value), "get");
    memcpy(&number, value.mv_data, sizeof number);
    l_put(txn, id, number + 1);
}

static void l_count(void *use, uint32_t a, uint32_t b, uint64_t sections) {
    MDB_txn *txn;
    (void)use;
    l(mdb_txn_begin(env, NULL, 0, &txn), "begin");
    for (uint64_t i = 0; i < sections; i++) l_add(txn, a), l_add(txn, b);
    l(mdb_txn_commit(txn), "commit");
}

static void l_close(void) { mdb_env_close(env); }
#endif

/* ---- RocksDB ---- */

#ifdef WITH_ROCKSDB
#include <rocksdb/c.h>

static rocksdb_transactiondb_t *rocks;
static rocksdb_transaction_options_t *rocks_transaction;
static rocksdb_writeoptions_t *rocks_write;
static rocksdb_readoptions_t *rocks_read;

static void k(const char *error, const char *what) { ask(error == NULL, what, error); }

static void k_open(void) {
    char *error = NULL;
    rocksdb_options_t *options = rocksdb_options_create();
    rocksdb_transactiondb_options_t *of_transactions = rocksdb_transactiondb_options_create();
    rocksdb_options_set_create_if_missing(options, 1);
    rocksdb_transactiondb_options_set_transaction_lock_timeout(of_transactions, 60000);
    rocks = rocksdb_transactiondb_open(options, of_transactions, path, &error);
    k(error, "open");
    rocks_transaction = rocksdb_transaction_options_create();
    rocks_write = rocksdb_writeoptions_create();
    rocksdb_writeoptions_set_sync(rocks_write, 1);
    rocks_read = rocksdb_readoptions_create();
}

static void k_add(rocksdb_transaction_t *within, uint32_t id) {
    char *error = NULL;
    size_t size = 0;
    uint64_t number = 0;
    char *value = rocksdb_transaction_get_for_update(within, rocks_read, (const char *)&id, sizeof id, &size, 1, &error);
    k(error, "get");
    if (value != NULL) memcpy(&number, value, sizeof number);
    free(value);
    number++;
    rocksdb_transaction_put(within, (const char *)&id, sizeof id, (const char *)&number, sizeof number, &error);
    k(error, "put");
}

static void k_count(void *use, uint32_t a, uint32_t b, uint64_t sections) {
    char *error = NULL;
    rocksdb_transaction_t *within = rocksdb_transaction_begin(rocks, rocks_write, rocks_transaction, NULL);
    (void)use;
    for (uint64_t i = 0; i < sections; i++) k_add(within, a), k_add(within, b);
    rocksdb_transaction_commit(within, &error);
    k(error, "commit");
    rocksdb_transaction_destroy(within);
}

static void k_close(void) { rocksdb_transactiondb_close(rocks); }
#endif

/* ---- Redis ---- */

static pid_t redis; /* the server, or 0 */
static struct sockaddr_un redis_at = {.sun_family = AF_UNIX};

static void *r_begin(void) {
    int *file = malloc(sizeof *file);
    must(file != NULL && (*file = socket(AF_UNIX, SOCK_STREAM | SOCK_CLOEXEC, 0)) >= 0, "socket");
    for (int tries = 0; connect(*file, (const void *)&redis_at, sizeof redis_at) != 0; tries++) {
        must(tries < 1000 && waitpid(redis, NULL, WNOHANG) == 0, "redis-server");
        usleep(10000);
    }
    return file;
}

static void r_open(void) {
    must(snprintf(redis_at.sun_path, sizeof redis_at.sun_path, "%s.s", path) < (int)sizeof redis_at.sun_path, "socket");
    must(mkdir(path, 0700) == 0, path);
    redis = fork();
    if (redis == 0) {
        (void)prctl(PR_SET_PDEATHSIG, SIGKILL);
        (void)!freopen("/dev/null", "w", stdout);
        execlp("redis-server", "redis-server", "--port", "0", "--unixsocket", redis_at.sun_path, "--dir", path, "--save", "",
               "--appendonly", "yes", "--appendfsync", "always", "--auto-aof-rewrite-percentage", "0", "--logfile", "", (char *)NULL);
        _exit(2);
    }
}

static void r_count(void *use, uint32_t a, uint32_t b, uint64_t sections) {
    int file = *(int *)use;
    size_t room = 64 * (size_t)sections + 64, size = 0;
    char *text = malloc(room), answer[1 << 14];
    must(text != NULL, "memory");
    size += (size_t)snprintf(text, room, "MULTI\r\n");
    for (uint64_t i = 0; i < sections; i++) size += (size_t)snprintf(text + size, room - size, "INCR %" PRIu32 "\r\nINCR %" PRIu32 "\r\n", a, b);
    size += (size_t)snprintf(text + size, room - size, "EXEC\r\n");
    for (size_t sent = 0; sent < size;) {
        ssize_t part = send(file, text + sent, size - sent, MSG_NOSIGNAL);
        must(part > 0, "send");
        sent += (size_t)part;
    }
    /* +OK, a +QUEUED for each INCR, the count of answers, and these. */
    for (uint64_t lines = 2 + 4 * sections; lines > 0;) {
        ssize_t part = recv(file, answer, sizeof answer, 0);
        must(part > 0 && memchr(answer, '-', (size_t)part) == NULL, "an answer");
        for (ssize_t i = 0; i < part; i++) lines -= answer[i] == '\n';
    }
    free(text);
}

static void r_end(void *use) { close(*(int *)use); }

static void r_close(void) {
    kill(redis, SIGKILL);
    waitpid(redis, NULL, 0);
}

static void *nothing(void) { return NULL; }
static void no_end(void *use) { (void)use; }
static void no_close(void) {}

/* An engine: opens the store, gives each thread its own use of it, makes so many sections durable, and closes it. */
static const struct engine {
    const char *name;
    void (*open)(void);
    void *(*begin)(void);
    void (*count)(void *use, uint32_t a, uint32_t b, uint64_t sections);
    void (*end)(void *use);
    void (*close)(void);
} engines[] = {
    {"zelamiku", z_open, z_begin, z_count, z_end, z_close},
    {"journal", j_open, z_begin, z_count, z_end, z_close},
#ifdef WITH_SQLITE
    {"sqlite", q_open, q_begin, q_count, q_end, no_close},
#endif
#ifdef WITH_LMDB
    {"lmdb", l_open, nothing, l_count, no_end, l_close},
#endif
#ifdef WITH_ROCKSDB
    {"rocksdb", k_open, nothing, k_count, no_end, k_close},
#endif
    {"redis", r_open, r_begin, r_count, r_end, r_close},
    {NULL, NULL, nothing, NULL, no_end, no_close},
};
static const struct engine *by = engines;

static double now(clockid_t clock) {
    struct timespec t;
    return clock_gettime(clock, &t) == 0 ? 1e6 * (double)t.tv_sec + (double)t.tv_nsec / 1e3 : 0;
}

/* Of all processes that count, in microseconds. */
static double processor(void) {
    clockid_t clock;
    return now(CLOCK_PROCESS_CPUTIME_ID) + (redis > 0 && clock_getcpuclockid(redis, &clock) == 0 ? now(clock) : 0);
}

static float *waits; /* microseconds; those of all threads */
static atomic_uint waited;

static void *work(void *data) {
    uint32_t own = (uint32_t)(uintptr_t)data;
    uint64_t sections = 0, each = group > 0 ? group : 1000;
    void *use = by->begin();
    pthread_barrier_wait(&start);
    while (!stopping) {
        double begun = now(CLOCK_MONOTONIC);
        by->count(use, first_of(own), second_of(own), each);
        unsigned place = waited++;
        if (place < MOST_WAITS) waits[place] = (float)(now(CLOCK_MONOTONIC) - begun);
        sections += each;
    }
    by->end(use);
    return (void *)(uintptr_t)sections;
}

/* What syncs.c counts, here and in a redis-server; NULL where syncs are the disk's. */
static syncs *syncs_made(void) {
    const char *name = getenv("SYNCS");
    if (name == NULL) return NULL;
    int file = open(name, O_RDWR | O_CREAT | O_CLOEXEC, 0600);
    must(file >= 0 && ftruncate(file, sizeof(syncs)) == 0, name);
    void *made = mmap(NULL, sizeof(syncs), PROT_READ | PROT_WRITE, MAP_SHARED, file, 0);
    must(made != MAP_FAILED, name);
    return made;
}

static int compare(const void *one, const void *other) {
    float a = *(const float *)one, b = *(const float *)other;
    return (a > b) - (a < b);
}

int main(int words, char **word) {
    while (words == 7 && by->name != NULL && strcmp(by->name, word[1]) != 0) by++;
    if (words != 7 || by->name == NULL) {
        fprintf(stderr, "stores ENGINE FILE THREADS GROUP SECONDS APART, with one of");
        for (by = engines; by->name != NULL; by++) fprintf(stderr, " %s", by->name);
        fprintf(stderr, "\n");
        return 2;
    }
    path = word[2];
    threads = (uint32_t)atoi(word[3]);
    group = strtoull(word[4], NULL, 10);
    distance = (uint32_t)atoi(word[6]);
    count = distance == 0 ? threads + 1 : 2 * threads * distance;
    waits = malloc(MOST_WAITS * sizeof *waits);
    if (threads < 1 || threads > MOST || waits == NULL) return 2;
    syncs *made = syncs_made();
    pthread_t workers[MOST];
    by->open();
    pthread_barrier_init(&start, NULL, threads + 1);
    for (uint32_t i = 0; i < threads; i++) must(pthread_create(&workers[i], NULL, work, (void *)(uintptr_t)i) == 0, "thread");
    pthread_barrier_wait(&start);
    if (made != NULL) made->count = 0;
    double begun = now(CLOCK_MONOTONIC), used = processor(), sections = 0;
    sleep((unsigned)atoi(word[5]));
    stopping = true;
    for (uint32_t i = 0; i < threads; i++) {
        void *done;
        pthread_join(workers[i], &done);
        sections += (double)(uintptr_t)done;
    }
    double rate = 1e6 * sections / (now(CLOCK_MONOTONIC) - begun), each = (processor() - used) / sections;
    uint64_t synced = made != NULL ? made->count : 0;
    by->close();
    unsigned kept = waited < MOST_WAITS ? waited : MOST_WAITS;
    qsort(waits, kept, sizeof *waits, compare);
    printf("%.0f %.2f %.0f %.0f %.0f", rate, each, waits[kept / 2], waits[kept * 99ull / 100], waits[kept * 999ull / 1000]);
    if (made != NULL) {
        unsigned took = (unsigned)(synced < SYNCS_KEPT ? synced : SYNCS_KEPT);
        qsort(made->took, took, sizeof *made->took, compare);
        printf(" %.4g %.1f", (double)synced / sections, took > 0 ? made->took[took / 2] : 0);
    }
    printf("\n");
    return 0;
}
