/* Tests of the heap's file (zelamiku_heap_open, zelamiku_heap_copy): a file that moves a byte at a time, is interrupted,
 * fails at each call in turn, is cut off or killed at each call of its making, has an old image, is made by several at once, and is replaced
 * while it is opened or copied to. A program closes it by mistake.
 *
 *     file FOLDER      prints nothing but a last line, and answers 0, where all is as it must be */
#define _GNU_SOURCE
#include <errno.h>
#include <fcntl.h>
#include <pthread.h>
#include <signal.h>
#include <stdarg.h>
#include <stdbool.h>
#include <stdint.h>
#include <stdio.h>
#include <stdlib.h>
#include <string.h>
#include <linux/capability.h>
#include <linux/loop.h>
#include <sys/file.h>
#include <sys/ioctl.h>
#include <sys/prctl.h>
#include <sys/stat.h>
#include <sys/types.h>
#include <sys/wait.h>
#include <time.h>
#include <unistd.h>

static int fails_in;       /* which write, sync or rename from now on fails; 0: none */
static int dies_in;        /* at which of them the process is killed; 0: at none */
static int moves_one_byte; /* and each second call is interrupted */
static int turn;

static int is_interrupted(void) {
    if (!moves_one_byte || ++turn % 2 == 0) return 0;
    errno = EINTR;
    return 1;
}

/* What was done to the file while `records` is set, in order. */
enum { WRITTEN, SYNCED, RENAMED, FOLDER_SYNCED };
static struct {
    int kind;
    off_t at;
    size_t size;
    uint8_t *bytes;
} steps[256];
static int records, step_count;

static void note(int kind, const void *bytes, size_t size, off_t at) {
    if (!records) return;
    if (step_count == 256) abort();
    steps[step_count].kind = kind;
    steps[step_count].at = at;
    steps[step_count].size = size;
    steps[step_count].bytes = (uint8_t *)malloc(size + 1);
    if (size > 0) memcpy(steps[step_count].bytes, bytes, size);
    step_count++;
}

static void begin_record(void) {
    while (step_count > 0) free(steps[--step_count].bytes);
    records = 1;
}

static int is_due(void) {
    if (dies_in > 0 && --dies_in == 0) (void)raise(SIGKILL);
    if (fails_in == 0 || --fails_in > 0) return 0;
    errno = ENOSPC;
    return 1;
}

static ssize_t flaky_pwrite(int file, const void *bytes, size_t size, off_t at) {
    if (is_interrupted() || is_due()) return -1;
    note(WRITTEN, bytes, size, at);
    return pwrite(file, bytes, moves_one_byte && size > 1 ? size / 2 : size, at);
}

static bool cuts; /* another, which locks nothing, cuts the file once its first bytes were read */

static ssize_t flaky_pread(int file, void *bytes, size_t size, off_t at) {
    if (is_interrupted()) return -1;
    if (cuts && size > 4096 && ftruncate(file, 4096) != 0) abort();
    return pread(file, bytes, moves_one_byte && size > 4095 ? 4095 : size, at);
}

static int stolen_at; /* at which sync from now on the program closes the heap's descriptor, and another file gets its number; 0: at none */
static const char *stolen_for;

static void steal(int file) {
    if (close(file) != 0 || open(stolen_for, O_RDWR | O_CREAT | O_CLOEXEC, 0600) != file) abort();
}

static int flaky_sync(int file) {
    if (is_interrupted() || is_due()) return -1;
    if (stolen_at > 0 && --stolen_at == 0) steal(file);
    note(SYNCED, NULL, 0, 0);
    return fcntl(file, F_GETFD) < 0 ? -1 : 0; /* no power fails here */
}

static int folder_error;  /* what a folder's sync answers, and an open of a folder to read it */
static int whole_syncs;   /* of a file system */

static int flaky_fsync(int folder) {
    if (is_interrupted() || is_due()) return -1;
    note(FOLDER_SYNCED, NULL, 0, 0);
    if (folder_error != 0) return errno = folder_error, -1;
    return fcntl(folder, F_GETFD) < 0 ? -1 : 0;
}

static int flaky_syncfs(int file) {
    if (is_interrupted() || is_due()) return -1;
    whole_syncs++;
    return fcntl(file, F_GETFD) < 0 ? -1 : 0;
}

static void (*before_rename)(void); /* what another does then */

static int flaky_rename(const char *from, const char *to) {
    if (is_due()) return -1;
    note(RENAMED, NULL, 0, 0);
    if (before_rename != NULL) before_rename();
    return rename(from, to);
}

/* The open of "slow" doesn't return before it may, or a minute has passed: before the file is open, or after. */
enum { AT_ONCE, OPENS_LATE, RETURNS_LATE };
static int slowness;
static _Atomic bool is_slow, may_return;

static void be_slow(const char *path, int when) {
    if (slowness != when || strcmp(path, "slow") != 0) return;
    is_slow = true;
    for (int tries = 0; !may_return && tries < 60000; tries++) (void)usleep(1000);
    is_slow = false;
}

static int releasing_nanosleep(const struct timespec *time, struct timespec *left);
static unsigned naps;               /* of the scheduler's threads */
static long nap_length;             /* of the last one, in nanoseconds */
static unsigned released_at;        /* at which nap `busy` is unlocked; 0: at none, and each nap lasts as it is asked */
static int busy = -1;

static mode_t mode_made; /* that of the last file which was made, before any umask */
static bool draft_goes;  /* before the next open of one that was there */

static int flaky_open(const char *path, int flags, ...) {
    va_list more;
    va_start(more, flags);
    mode_t mode = (flags & O_CREAT) != 0 ? va_arg(more, mode_t) : 0;
    va_end(more);
    if ((flags & O_CREAT) != 0) mode_made = mode;
    if (draft_goes && (flags & O_CREAT) == 0 && strstr(path, ".heapctl-new") != NULL) draft_goes = unlink(path) != 0;
    if ((flags & O_DIRECTORY) != 0 && folder_error == EACCES) return errno = EACCES, -1;
    be_slow(path, OPENS_LATE);
    int file = is_interrupted() ? -1 : open(path, flags, mode);
    if (file >= 0) be_slow(path, RETURNS_LATE);
    return file;
}

static void (*before_lock)(void); /* what another does before a file is locked */

static int replacing_flock(int file, int how) {
    if (is_interrupted()) return -1;
    if (before_lock != NULL && (how & LOCK_EX) != 0) before_lock();
    return flock(file, how);
}

static size_t most; /* the most bytes that were asked of malloc at once */

static void *watched_malloc(size_t size) {
    if (size > most) most = size;
    return malloc(size);
}

#define pwrite flaky_pwrite
#define pread flaky_pread
#define fdatasync flaky_sync
#define fsync flaky_fsync
#define syncfs flaky_syncfs
#define rename flaky_rename
#define open flaky_open
#define flock(file, how) replacing_flock(file, how)
#define malloc watched_malloc
#define nanosleep releasing_nanosleep
#include "../zelamiku_threads.c"
#undef pwrite
#undef pread
#undef rename
#undef open
#undef flock
#undef malloc
#undef nanosleep

#include "must.h"

static const zelamiku_field FIELD = {0, 0, 5, 0};
/* No round comes by itself: which call of a round fails is told beforehand. */
static zelamiku_plan plan = {.size = sizeof(zelamiku_plan), .fields = &FIELD, .count = 1, .objects = 1, .lanes = 2, .capacity = 2000, .linger = UINT32_MAX};
static zelamiku_report report = {.size = sizeof report};

static zelamiku_status open_heap(zelamiku_heap *heap) {
    return zelamiku_heap_open(heap, "heap", &plan, &report);
}

/* What the heap of the path has, after it has stored more. */
static uint64_t add(zelamiku_heap heap, uint64_t more) {
    zelamiku_thread own;
    uint64_t value = 0;
    MUST(zelamiku_thread_begin(&own, heap) == ZELAMIKU_OK && zelamiku_thread_enter(own, 0) == ZELAMIKU_OK);
    MUST(zelamiku_thread_load(own, 0, &value) == ZELAMIKU_OK && zelamiku_thread_store(own, 0, value + more) == ZELAMIKU_OK);
    MUST(zelamiku_thread_exit(own, 0) == ZELAMIKU_OK && zelamiku_thread_await(own) == ZELAMIKU_OK);
    MUST(zelamiku_thread_end(own) == ZELAMIKU_OK);
    return value + more;
}

static uint64_t found(void) {
    zelamiku_heap heap;
    MUST(open_heap(&heap) == ZELAMIKU_OK);
    uint64_t value = add(heap, 0);
    MUST(zelamiku_heap_close(heap) == ZELAMIKU_OK);
    return value;
}

static const char BESIDE_IT[] = "heap.heapctl-new";

static void remove_file(void) {
    MUST((unlink("heap") == 0 || errno == ENOENT) && (unlink(BESIDE_IT) == 0 || errno == ENOENT));
}

static void make_file_of(const char *path, const void *bytes, size_t size, mode_t mode) {
    int file = open(path, O_RDWR | O_CREAT | O_TRUNC | O_CLOEXEC, 0600);
    MUST(file >= 0 && pwrite(file, bytes, size, 0) == (ssize_t)size && fchmod(file, mode) == 0 && close(file) == 0);
}

static bool is_missing(const char *path) {
    struct stat info;
    return stat(path, &info) != 0 && errno == ENOENT;
}

static mode_t mode_of(const char *path) {
    struct stat info;
    MUST(stat(path, &info) == 0);
    return info.st_mode & 0777;
}

/* How many descriptors there are. `inherited`: how many of them a program has too that this process executes. */
static unsigned descriptors(unsigned *inherited) {
    unsigned count = 0;
    *inherited = 0;
    for (int file = 0; file < 1024; file++) {
        int flags = fcntl(file, F_GETFD);
        count += flags >= 0;
        *inherited += flags >= 0 && (flags & FD_CLOEXEC) == 0;
    }
    return count;
}

/* A new heap has the rights that the process' mask leaves. One in an empty file has that file's owner. A program that is executed has no descriptor
 * of a heap, by which it would keep the heap's lock. */
static void rights(void) {
    zelamiku_heap heap;
    zelamiku_thread own;
    struct stat info;
    int event;
    unsigned inherited, before;
    mode_t mask = umask(0026);
    (void)descriptors(&before);
    remove_file();
    MUST(open_heap(&heap) == ZELAMIKU_OK && mode_of("heap") == 0640 && zelamiku_thread_begin(&own, heap) == ZELAMIKU_OK);
    MUST(zelamiku_thread_event(own, &event) == ZELAMIKU_OK && event > 2);
    (void)descriptors(&inherited);
    MUST(inherited == before && zelamiku_thread_end(own) == ZELAMIKU_OK && zelamiku_heap_close(heap) == ZELAMIKU_OK);
    (void)umask(mask);
    remove_file();
    make_file_of("heap", "", 0, 0600);
    if (chown("heap", 1, 1) != 0) {
        printf("LEFT OUT: a user that may give no file away: the owner of a heap in an empty file\n");
        return;
    }
    MUST(open_heap(&heap) == ZELAMIKU_OK && zelamiku_heap_close(heap) == ZELAMIKU_OK);
    MUST(stat("heap", &info) == 0 && info.st_uid == 1 && info.st_gid == 1 && unlink("heap") == 0);
}

static void life(void) {
    zelamiku_heap heap;
    remove_file();
    MUST(open_heap(&heap) == ZELAMIKU_OK && report.is_made == 1 && report.lanes == 2 && report.capacity == 2000);
    MUST(add(heap, 2) == 7 && zelamiku_heap_close(heap) == ZELAMIKU_OK);
    MUST(open_heap(&heap) == ZELAMIKU_OK && report.is_made == 0 && report.kept[0] == 1 && add(heap, 1) == 8);
    MUST(zelamiku_heap_stop(heap, ZELAMIKU_ABANDONED) == ZELAMIKU_OK && found() == 8);
}

/* An image of version 1, as a library from before there were transient fields left it, isn't opened but where the plan says so. Where the two
 * controls begin, by their gates, and the last byte of their version: docs/FORMAT.md. */
static void old(void) {
    static const off_t SLOTS[2] = {64, 1112};
    zelamiku_heap heap;
    life();
    int file = open("heap", O_RDWR | O_CLOEXEC);
    for (int i = 0; i < 2; i++) {
        uint8_t gate = 0, version = 1;
        MUST(pread(file, &gate, 1, SLOTS[i]) == 1);
        if (gate == 0xa5) MUST(pwrite(file, &version, 1, SLOTS[i] + 19) == 1);
    }
    MUST(close(file) == 0 && open_heap(&heap) == ZELAMIKU_OLD_VERSION && strstr(zelamiku_heap_failure(NULL), "let the open upgrade it") != NULL);
    plan.upgrades = 1;
    MUST(open_heap(&heap) == ZELAMIKU_OK && report.is_upgraded == 1 && add(heap, 0) == 8 && zelamiku_heap_close(heap) == ZELAMIKU_OK);
    MUST(open_heap(&heap) == ZELAMIKU_OK && report.is_upgraded == 0 && zelamiku_heap_close(heap) == ZELAMIKU_OK);
    plan.upgrades = 0;
    MUST(found() == 8);
}

static const char *replacement;

static void replace_heap(void) {
    MUST(rename("heap", "moved") == 0 && symlink(replacement, "heap") == 0);
}

/* One open has the file's heap at a time; and one that was replaced meanwhile has none. */
static void others(void) {
    zelamiku_heap heap;
    MUST(zelamiku_heap_open(&heap, "no folder/heap", &plan, NULL) == ZELAMIKU_DEVICE && strstr(zelamiku_heap_failure(NULL), "; make its folder first") != NULL);
    life();
    int file = open("heap", O_RDWR | O_CLOEXEC);
    MUST(file >= 0 && flock(file, LOCK_SH | LOCK_NB) == 0);
    MUST(open_heap(&heap) == ZELAMIKU_BUSY && strstr(zelamiku_heap_failure(NULL), "heap: open: another process has the heap") != NULL);
    MUST(close(file) == 0 && found() == 8);
    file = open("spare", O_RDWR | O_CREAT | O_CLOEXEC, 0600);
    MUST(file >= 0 && close(file) == 0);
    for (int i = 0; i < 2; i++) {
        replacement = i == 0 ? "spare" : "/dev/null";
        before_lock = replace_heap;
        MUST(open_heap(&heap) == ZELAMIKU_BUSY && strstr(zelamiku_heap_failure(NULL), "replaced or removed") != NULL);
        before_lock = NULL;
        MUST(rename("moved", "heap") == 0 && found() == 8);
    }
    MUST(zelamiku_heap_open(&heap, "spare", &plan, NULL) == ZELAMIKU_OK && zelamiku_heap_close(heap) == ZELAMIKU_OK);
}

static unsigned removals; /* so many files beside are removed as soon as they are made */

static void remove_beside(void) {
    if (removals == 0) return;
    removals--;
    MUST(unlink(BESIDE_IT) == 0);
}

/* Another process has made a file of the path. */
static void come_first(void) {
    if (is_missing("heap")) make_file_of("heap", "another's", 9, 0600);
}

/* What others do to the path, and to the file beside it, while a heap is made. A making gives up after five files that were taken from it. */
static void beside_others(void) {
    zelamiku_heap heap;
    remove_file();
    before_lock = remove_beside;
    removals = 10;
    MUST(open_heap(&heap) == ZELAMIKU_BUSY && removals == 5 && is_missing("heap") && is_missing(BESIDE_IT));
    removals = 4;
    MUST(open_heap(&heap) == ZELAMIKU_OK && removals == 0 && zelamiku_heap_close(heap) == ZELAMIKU_OK);
    remove_file();
    before_lock = come_first;
    MUST(open_heap(&heap) == ZELAMIKU_BUSY && strstr(zelamiku_heap_failure(NULL), "replaced or removed meanwhile") != NULL);
    before_lock = NULL;
    MUST(open_heap(&heap) == ZELAMIKU_NOT_FORMATTED && is_missing(BESIDE_IT));
    remove_file();
    MUST(mkdir(BESIDE_IT, 0700) == 0 && open_heap(&heap) == ZELAMIKU_DEVICE && last_failure().error == EISDIR && rmdir(BESIDE_IT) == 0);
    MUST(strstr(zelamiku_heap_failure(NULL), "a file can't be made beside it") != NULL && is_missing("heap"));
}

/* A block device that udevd has locked is waited for, a second. */
static void waits_for_a_volume(void) {
    int file = open("spare", O_RDWR | O_CLOEXEC);
    busy = open("spare", O_RDWR | O_CLOEXEC);
    MUST(file >= 0 && busy >= 0 && flock(busy, LOCK_EX | LOCK_NB) == 0);
    naps = 0;
    released_at = 200;
    MUST(lock_volume(file) == ZELAMIKU_BUSY && naps == 100 && nap_length == SECOND / 100);
    naps = 0;
    released_at = 5;
    MUST(lock_volume(file) == ZELAMIKU_OK && naps == 5 && close(file) == 0 && close(busy) == 0);
    released_at = 0;
}

/* Of a large file that has no image little is read at once, and of one that has, the image. One that is cut meanwhile is refused. */
static void sizes(void) {
    zelamiku_heap heap;
    life();
    MUST(truncate("heap", (off_t)1 << 40) == 0);
    most = 0;
    MUST(found() == 8 && most == report.bytes);
    cuts = true;
    MUST(open_heap(&heap) == ZELAMIKU_DEVICE && strstr(zelamiku_heap_failure(NULL), "heap: open: it can't be read: Input/output error") != NULL);
    cuts = false;
    MUST(open_heap(&heap) == ZELAMIKU_DAMAGED_FILE && report.damage == ZELAMIKU_DAMAGED_LENGTH);
    int file = open("heap", O_RDWR | O_CLOEXEC);
    MUST(pwrite(file, "\xff", 1, 24) == 1);
    most = 0;
    MUST(open_heap(&heap) == ZELAMIKU_DAMAGED_FILE && most <= ZELAMIKU_HEAD_BYTES);
    MUST(pwrite(file, "x", 1, 0) == 1 && open_heap(&heap) == ZELAMIKU_NOT_FORMATTED && most <= ZELAMIKU_HEAD_BYTES && close(file) == 0);
}

/* A ring of the plan's size takes more sections than the least one does, before a round; also after the heap was opened again. */
static void rings(void) {
    enum { SECTIONS = 2 * ZELAMIKU_LEAST_RING / 900, STORES = 900 };
    zelamiku_plan usual = plan;
    zelamiku_heap heap;
    zelamiku_thread own;
    remove_file();
    plan.ring = plan.capacity = 8 * ZELAMIKU_LEAST_RING;
    for (int opens = 0; opens < 2; opens++) {
        MUST(open_heap(&heap) == ZELAMIKU_OK && zelamiku_thread_begin(&own, heap) == ZELAMIKU_OK);
        for (int section = 0; section < SECTIONS; section++) {
            MUST(zelamiku_thread_enter_until(own, 0, 0) == ZELAMIKU_OK);
            for (uint64_t i = 0; i < STORES; i++) MUST(zelamiku_thread_store(own, 0, i) == ZELAMIKU_OK);
            MUST(zelamiku_thread_exit(own, 0) == ZELAMIKU_OK);
        }
        MUST(zelamiku_thread_end(own) == ZELAMIKU_OK && zelamiku_heap_close(heap) == ZELAMIKU_OK);
    }
    plan = usual;
}

static void read_head(uint8_t *head) {
    int file = open("heap", O_RDONLY | O_CLOEXEC);
    MUST(file >= 0 && pread(file, head, ZELAMIKU_HEAD_BYTES, 0) == ZELAMIKU_HEAD_BYTES && close(file) == 0);
}

/* ---- the helper's lane ---- */

/* Just so many threads may use the heap at once. Each of them makes a section durable, by rounds of so many syncs. */
static void use_lanes(zelamiku_heap heap, uint32_t threads, uint64_t syncs) {
    zelamiku_thread own[ZELAMIKU_MOST_LANES], another;
    for (uint32_t i = 0; i < threads; i++) MUST(zelamiku_thread_begin(&own[i], heap) == ZELAMIKU_OK);
    MUST(zelamiku_thread_begin(&another, heap) == ZELAMIKU_NONE_LEFT);
    zelamiku_stats before = stats_now(heap);
    for (uint32_t i = 0; i < threads; i++) {
        MUST(zelamiku_thread_enter(own[i], 0) == ZELAMIKU_OK && zelamiku_thread_store(own[i], 0, 100 + i) == ZELAMIKU_OK);
        MUST(zelamiku_thread_exit(own[i], 0) == ZELAMIKU_OK && zelamiku_thread_await(own[i]) == ZELAMIKU_OK);
    }
    zelamiku_stats after = stats_now(heap);
    uint64_t two = after.two_sync_rounds - before.two_sync_rounds, four = after.four_sync_rounds - before.four_sync_rounds;
    MUST((syncs == 2 ? two : four) > 0 && (syncs == 2 ? four : two) == 0 && after.syncs - before.syncs == 2 * two + 4 * four);
    for (uint32_t i = 0; i < threads; i++) MUST(zelamiku_thread_end(own[i]) == ZELAMIKU_OK);
}

/* The report has so many lanes, each with a section that was kept, and nothing of the helper's. */
static void has_kept(uint32_t threads, uint64_t each) {
    MUST(report.is_made == 0 && report.lanes == threads && report.dropped == 0 && report.undone == 0);
    for (uint32_t lane = 0; lane < ZELAMIKU_MOST_LANES; lane++) MUST(report.kept[lane] == (lane < threads ? each : 0));
}

/* A heap is made with a lane more than threads, which is the helper's, but with 32 of them. Neither a close nor a crash tells of it. */
static unsigned without_lane; /* lines that no lane is the helper's */

static void note_warning(void *of, uint32_t level, const char *text) {
    (void)of;
    without_lane += level == ZELAMIKU_LOG_WARNING && strstr(text, "heap: no lane is the helper's, so a round takes four syncs") == text;
}

static void lanes(void) {
    static const uint32_t THREADS[] = {1, 31, 32, 4};
    zelamiku_plan usual = plan;
    zelamiku_heap heap;
    for (size_t i = 0; i < sizeof THREADS / sizeof *THREADS; i++) {
        uint32_t threads = THREADS[i], there = threads < 32 ? threads + 1 : 32;
        uint8_t head[ZELAMIKU_HEAD_BYTES];
        zelamiku_shape shape;
        remove_file();
        plan.lanes = threads;
        plan.log = note_warning;
        without_lane = 0;
        MUST(open_heap(&heap) == ZELAMIKU_OK && report.is_made == 1 && report.lanes == threads);
        MUST(without_lane == (threads == 32));
        use_lanes(heap, threads, there > threads ? 2 : 4);
        MUST(zelamiku_heap_stop(heap, ZELAMIKU_ABANDONED) == ZELAMIKU_OK);
        read_head(head);
        MUST(zelamiku_head(head, sizeof head, &shape) == ZELAMIKU_OK && shape.lanes == there && shape.size == report.bytes);
        MUST(open_heap(&heap) == ZELAMIKU_OK);
        has_kept(threads, 1);
        use_lanes(heap, threads, there > threads ? 2 : 4);
        MUST(zelamiku_heap_close(heap) == ZELAMIKU_OK);
    }
    /* Of four threads' heap fewer threads have no other lanes; and five have them all. */
    plan.lanes = 2;
    MUST(open_heap(&heap) == ZELAMIKU_OK);
    has_kept(4, 1);
    use_lanes(heap, 4, 2);
    MUST(zelamiku_heap_close(heap) == ZELAMIKU_OK);
    plan.lanes = 5;
    without_lane = 0;
    MUST(open_heap(&heap) == ZELAMIKU_OK && report.lanes == 5 && without_lane == 1);
    use_lanes(heap, 5, 4);
    MUST(zelamiku_heap_close(heap) == ZELAMIKU_OK && open_heap(&heap) == ZELAMIKU_OK);
    has_kept(5, 1);
    MUST(zelamiku_heap_close(heap) == ZELAMIKU_OK);
    plan.lanes = 6;
    MUST(open_heap(&heap) == ZELAMIKU_OTHER_HEAP && report.has == 5 && report.planned == 6);
    plan = usual;
}

/* An opening syncs, writes each gate back, and syncs the folder, before recovery makes its calls, the first of which is a sync: whoever
 * renamed the file to its path may have been killed before. Where one of these fails, there is no heap, and the file is as it was. A folder that
 * can't be read, or has no syncs, is synced with its file system. */
static void openings(void) {
    uint8_t before[ZELAMIKU_HEAD_BYTES], after[ZELAMIKU_HEAD_BYTES];
    zelamiku_heap heap;
    life();
    read_head(before);
    begin_record();
    MUST(open_heap(&heap) == ZELAMIKU_OK);
    records = 0;
    MUST(step_count > 6 && steps[0].kind == SYNCED && steps[4].kind == FOLDER_SYNCED);
    MUST(steps[5].kind == SYNCED); /* the recovery's own first */
    for (int i = 0; i < 3; i++) {
        static const size_t GATES[] = {8, 64, 1112};
        MUST(steps[i + 1].kind == WRITTEN && (size_t)steps[i + 1].at == GATES[i] && steps[i + 1].size == 1);
        MUST(((const uint8_t *)steps[i + 1].bytes)[0] == before[GATES[i]]);
    }
    MUST(zelamiku_heap_close(heap) == ZELAMIKU_OK);
    read_head(before);
    for (int call = 1; call <= 5; call++) {
        fails_in = call;
        MUST(open_heap(&heap) == ZELAMIKU_DEVICE && fails_in == 0 && strstr(zelamiku_heap_failure(NULL), "No space left") != NULL);
        MUST((strstr(zelamiku_heap_failure(NULL), "its folder can't be synced") != NULL) == (call == 5));
        read_head(after);
        MUST(memcmp(before, after, ZELAMIKU_HEAD_BYTES) == 0);
    }
    static const int OTHERS[] = {EACCES, EINVAL, EIO};
    for (int i = 0; i < 3; i++) {
        whole_syncs = 0;
        folder_error = OTHERS[i];
        zelamiku_status status = open_heap(&heap);
        MUST(status == (folder_error == EIO ? ZELAMIKU_DEVICE : ZELAMIKU_OK) && whole_syncs == (folder_error != EIO));
        if (status == ZELAMIKU_OK) MUST(zelamiku_heap_close(heap) == ZELAMIKU_OK);
    }
    folder_error = EACCES;
    fails_in = 5;
    MUST(open_heap(&heap) == ZELAMIKU_DEVICE && fails_in == 0 && strstr(zelamiku_heap_failure(NULL), "its folder can't be synced: No space") != NULL);
    folder_error = 0;
    MUST(found() == 8);
}

/* Each write, sync and rename of a making fails in turn: no file is left, or an empty one that was there stays so; where the folder's last sync
 * fails that one may be a heap by now. Nothing is left beside. Answers how many there are. */
static int failing_makings(void) {
    zelamiku_heap heap;
    struct stat info;
    for (int call = 1;; call++) {
        bool was_there = call % 2 == 0;
        remove_file();
        if (was_there) make_file_of("heap", "", 0, 0640);
        fails_in = call;
        zelamiku_status status = open_heap(&heap);
        int left = fails_in;
        fails_in = 0;
        MUST(is_missing(BESIDE_IT));
        if (status == ZELAMIKU_OK) {
            MUST(left > 0 && add(heap, 1) == 6 && zelamiku_heap_close(heap) == ZELAMIKU_OK);
            return call - 1;
        }
        MUST(status == ZELAMIKU_DEVICE && last_failure().error == ENOSPC && report.is_made == 0);
        if (was_there)
            MUST(stat("heap", &info) == 0 && (info.st_size == 0 || strstr(zelamiku_heap_failure(NULL), "its folder can't be synced") != NULL));
        else
            MUST(is_missing("heap"));
        MUST(found() == 5 && (!was_there || mode_of("heap") == 0640));
    }
}

/* ---- what a crash leaves of a file that is being made ---- */

enum { PIECE = 512, CRASHES = 24 };

/* Lays a step over an image, or where it was still pending some parts of it, by the bits of `which`. */
static size_t lay(uint8_t *image, size_t size, int step, uint32_t which) {
    size_t from = (size_t)steps[step].at, end = from + steps[step].size;
    if (steps[step].kind != WRITTEN) return size;
    for (size_t part = from / PIECE; part * PIECE < end; part++) {
        size_t at = part * PIECE > from ? part * PIECE : from, stop = (part + 1) * PIECE < end ? (part + 1) * PIECE : end;
        if (!(which >> part % 32 & 1)) continue;
        if (at > size) memset(image + size, 0, at - size);
        memcpy(image + at, steps[step].bytes + (at - from), stop - at);
        if (stop > size) size = stop;
    }
    return size;
}

static uint32_t parts_of(uint32_t crash, int done) {
    return crash == 0 ? UINT32_MAX : crash == 1 ? 0 : crash * 2654435761u ^ (uint32_t)done * 40503u;
}

/* A crash at each call of a making, that keeps all of what is pending, none, or any part, leaves the file beside, and nothing at the path; or
 * the heap there: all that was written was synced before. The next open makes or recovers it. */
static int cut_off_makings(void) {
    static uint8_t image[1 << 20];
    int count = 0, renamed = 0;
    remove_file();
    begin_record();
    MUST(found() == 5);
    records = 0;
    while (renamed < step_count && steps[renamed].kind != RENAMED) renamed++;
    MUST(renamed < step_count && steps[renamed - 1].kind == SYNCED && steps[renamed + 1].kind == FOLDER_SYNCED);
    for (int done = 0; done <= step_count; done++)
        for (uint32_t crash = 0; crash < CRASHES; crash++, count++) {
            int durable = done;
            size_t size = 0;
            while (durable > 0 && steps[durable - 1].kind != SYNCED) durable--;
            for (int i = 0; i < done; i++) size = lay(image, size, i, i < durable ? UINT32_MAX : parts_of(crash, done));
            remove_file();
            make_file_of(done > renamed ? "heap" : BESIDE_IT, image, size, 0600);
            MUST(found() == 5 && is_missing(BESIDE_IT));
        }
    return count;
}

/* Whether what a making in place has left is free, by docs/FORMAT.md: after the row and the cell of the one field there are zeros; where the
 * header isn't there yet, before these too. The control is none, or the first. */
static bool is_left_free(const uint8_t *image, size_t size) {
    size_t end = 2160 + 24 * (size_t)image[19];
    while (end < size && image[end] == 0) end++;
    return end == size;
}

/* What makings in place have left that were cut off: zeros, the name, and then some of the heap's calls. A free one is made; any other is refused,
 * and left as it is. */
static int old_makings(void) {
    static uint8_t image[1 << 20], after[1 << 20];
    zelamiku_heap heap;
    int count = 0, made = 0, first = 0;
    size_t size = 0;
    while (steps[first].kind == WRITTEN) size = lay(image, size, first++, UINT32_MAX);
    for (int done = first; done < step_count && steps[done].kind != RENAMED; done++)
        for (uint32_t crash = 0; crash < CRASHES; crash++) {
            memset(image, 0, size);
            memcpy(image, "MONIHEAP", 8);
            for (int i = first; i < done; i++) (void)lay(image, size, i, parts_of(crash, done));
            if (image[8] == 0xa5) continue; /* it is a heap */
            bool is_free = is_left_free(image, size);
            make_file_of("heap", image, size, 0640);
            zelamiku_status status = open_heap(&heap);
            MUST(status == (is_free ? ZELAMIKU_OK : ZELAMIKU_NOT_FORMATTED) && report.is_made == is_free);
            count++, made += is_free;
            if (is_free) {
                MUST(add(heap, 0) == 5 && mode_of("heap") == 0640 && zelamiku_heap_close(heap) == ZELAMIKU_OK);
            } else {
                int file = open("heap", O_RDONLY | O_CLOEXEC);
                MUST(read(file, after, sizeof after) == (ssize_t)size && memcmp(image, after, size) == 0 && close(file) == 0);
                MUST(strstr(zelamiku_heap_failure(NULL), "its first bytes are damaged") != NULL);
            }
        }
    MUST(made > 0 && made < count);
    return count;
}

/* ---- processes ---- */

enum { TIMED_KILLS = 40 };

/* A process that makes a heap is killed, at each of its calls in turn, and after some time: the path has nothing, or the empty file that it had, or
 * the heap. The next one takes the file beside up. Answers how many were killed before the heap was there. */
static int killed_makings(int calls) {
    struct stat info;
    zelamiku_heap heap;
    int early = 0;
    zelamiku_plan large = plan;
    large.lanes = 8, large.capacity = 20000;
    remove_file();
    uint64_t begun = zelamiku_now();
    MUST(zelamiku_heap_open(&heap, "heap", &large, NULL) == ZELAMIKU_OK);
    uint64_t usual = (zelamiku_now() - begun) / 1000;
    MUST(zelamiku_heap_close(heap) == ZELAMIKU_OK);
    for (int kill_ = 0; kill_ < 2 * calls + TIMED_KILLS; kill_++) {
        bool was_there = kill_ % 2 == 1;
        int own = kill_ < 2 * calls ? kill_ / 2 + 1 : 0, status = 0;
        remove_file();
        if (was_there) make_file_of("heap", "", 0, 0640);
        pid_t child = fork();
        MUST(child >= 0);
        if (child == 0) {
            dies_in = own;
            _exit(zelamiku_heap_open(&heap, "heap", &large, NULL) == ZELAMIKU_OK && pause() == 0);
        }
        if (own == 0) {
            (void)usleep((useconds_t)(usual * (uint64_t)(kill_ - 2 * calls) * 2 / TIMED_KILLS));
            MUST(kill(child, SIGKILL) == 0);
        }
        MUST(waitpid(child, &status, 0) == child && WIFSIGNALED(status));
        bool is_there = stat("heap", &info) == 0;
        MUST(is_there || !was_there);
        early += !is_there || info.st_size == 0;
        MUST(own != 1 || !is_there || info.st_size == 0);
        MUST(zelamiku_heap_open(&heap, "heap", &large, &report) == ZELAMIKU_OK && report.is_made == (!is_there || info.st_size == 0));
        MUST(add(heap, 0) == 5 && zelamiku_heap_close(heap) == ZELAMIKU_OK && is_missing(BESIDE_IT));
    }
    return early;
}

/* What a process that opened the heap at once with others has: 0: it was BUSY; 1: it opened it; 2: it made it; 3: something else. */
static int opened_at_once(int start, int tried, int end) {
    zelamiku_heap heap;
    char go = 0;
    if (read(start, &go, 1) != 0) return 3;
    zelamiku_status status = open_heap(&heap);
    int answer = status == ZELAMIKU_BUSY ? 0 : status == ZELAMIKU_OK ? 1 + (int)report.is_made : 3;
    if (answer == 3) fprintf(stderr, "%s\n", zelamiku_heap_failure(NULL));
    return write(tried, &go, 1) == 1 && read(end, &go, 1) == 0 ? answer : 3;
}

/* Processes that open one path at once: one makes the heap and has it alone, and the others are BUSY. */
static void at_once(void) {
    enum { PROCESSES = 4 };
    for (int turn_ = 0; turn_ < 40; turn_++) {
        pid_t children[PROCESSES];
        int start[2], tried[2], end[2], counts[4] = {0};
        char byte;
        remove_file();
        if (turn_ % 2 == 1) make_file_of("heap", "", 0, 0600);
        MUST(pipe(start) == 0 && pipe(tried) == 0 && pipe(end) == 0);
        for (int i = 0; i < PROCESSES; i++) {
            children[i] = fork();
            MUST(children[i] >= 0);
            if (children[i] > 0) continue;
            (void)close(start[1]);
            (void)close(end[1]);
            _exit(opened_at_once(start[0], tried[1], end[0]));
        }
        MUST(close(start[1]) == 0);
        for (int i = 0; i < PROCESSES; i++) MUST(read(tried[0], &byte, 1) == 1);
        MUST(close(end[1]) == 0 && close(start[0]) == 0 && close(tried[0]) == 0 && close(tried[1]) == 0 && close(end[0]) == 0);
        for (int i = 0; i < PROCESSES; i++) {
            int status = 0;
            MUST(waitpid(children[i], &status, 0) == children[i] && WIFEXITED(status));
            counts[WEXITSTATUS(status)]++;
        }
        MUST(counts[2] == 1 && counts[1] == 0 && counts[3] == 0 && is_missing(BESIDE_IT));
    }
}

static void *open_slowly(void *data) {
    zelamiku_heap heap;
    MUST(zelamiku_heap_open(&heap, "slow", &plan, NULL) == ZELAMIKU_OK && zelamiku_heap_close(heap) == ZELAMIKU_OK);
    return data;
}

/* Who forks waits: the open goes on, and its file is listed. */
static int releasing_nanosleep(const struct timespec *time, struct timespec *left) {
    naps++;
    nap_length = time->tv_nsec;
    if (naps == released_at) MUST(flock(busy, LOCK_UN) == 0);
    if (released_at > 0) return 0;
    if (slowness != RETURNS_LATE || naps < 10) return nanosleep(time, left);
    may_return = true;
    while (opens_underway > 0) (void)usleep(1000);
    return 0;
}

/* Whether a child that is forked now has the file at the path. */
static bool child_has(const char *path) {
    struct stat named, its;
    int status = 0;
    MUST(stat(path, &named) == 0);
    pid_t child = fork();
    MUST(child >= 0);
    if (child == 0) {
        for (int file = 0; file < 100; file++)
            if (fstat(file, &its) == 0 && its.st_ino == named.st_ino && its.st_dev == named.st_dev) _exit(1);
        /* Its own children wait for no open of its parent's. */
        naps = 0;
        slowness = AT_ONCE;
        pid_t next = fork();
        if (next == 0) _exit(0);
        _exit(next > 0 && waitpid(next, &status, 0) == next && naps == 0 ? 0 : 2);
    }
    MUST(waitpid(child, &status, 0) == child && WIFEXITED(status) && WEXITSTATUS(status) < 2);
    return WEXITSTATUS(status) != 0;
}

/* An open that hangs, as on a server that doesn't answer, keeps no other heap of the process waiting, and no fork. One that has just opened its file
 * when another thread forks is waited for: the child would keep the file's lock, of which it knows nothing. */
static void slow_opens(void) {
    make_file_of("slow", "", 0, 0600);
    for (int when = OPENS_LATE; when <= RETURNS_LATE; when++) {
        pthread_t opener;
        is_slow = may_return = false;
        slowness = when;
        naps = 0;
        MUST(pthread_create(&opener, NULL, open_slowly, NULL) == 0);
        UNTIL(is_slow);
        if (when == OPENS_LATE) life();
        MUST(!child_has("slow") && (when == RETURNS_LATE || is_slow));
        may_return = true;
        MUST(pthread_join(opener, NULL) == 0);
    }
    slowness = AT_ONCE;
    MUST(unlink("slow") == 0);
}

/* ---- names ---- */

/* A heap in the root folder, as containers have one. */
static void rooted(void) {
    zelamiku_heap heap;
    int root = open("/", O_RDONLY | O_DIRECTORY | O_CLOEXEC), here = open(".", O_RDONLY | O_DIRECTORY | O_CLOEXEC);
    MUST(root >= 0 && here >= 0);
    if (chroot("real") != 0) {
        printf("LEFT OUT: a user that may change no root: a heap in the root folder\n");
    } else {
        zelamiku_status status = zelamiku_heap_open(&heap, "/heap", &plan, &report);
        MUST(fchdir(root) == 0 && chroot(".") == 0 && fchdir(here) == 0 && status == ZELAMIKU_OK && report.is_made == 1);
        MUST(zelamiku_heap_close(heap) == ZELAMIKU_OK && unlink("real/heap") == 0);
    }
    MUST(close(root) == 0 && close(here) == 0);
}

/* A link stays, and what it leads to gets the heap, also where that is no file yet. */
static void links(void) {
    zelamiku_heap heap;
    struct stat info;
    MUST(mkdir("real", 0700) == 0 && symlink("real/heap", "link") == 0 && symlink("link", "link to it") == 0);
    for (int was_there = 0; was_there < 2; was_there++) {
        if (was_there) make_file_of("real/heap", "", 0, 0604);
        MUST(zelamiku_heap_open(&heap, "link to it", &plan, &report) == ZELAMIKU_OK && report.is_made == 1 && add(heap, 1) == 6);
        MUST(zelamiku_heap_copy(heap, "link") == ZELAMIKU_BUSY && zelamiku_heap_close(heap) == ZELAMIKU_OK);
        MUST(lstat("link to it", &info) == 0 && S_ISLNK(info.st_mode) && lstat("link", &info) == 0 && S_ISLNK(info.st_mode));
        MUST(lstat("real/heap", &info) == 0 && S_ISREG(info.st_mode) && (!was_there || (info.st_mode & 0777) == 0604));
        MUST(zelamiku_heap_open(&heap, "real/heap", &plan, NULL) == ZELAMIKU_OK && add(heap, 0) == 6 && zelamiku_heap_close(heap) == ZELAMIKU_OK);
        MUST(unlink("real/heap") == 0);
    }
    rooted();
    MUST(symlink("../circle", "real/circle") == 0 && symlink("real/circle", "circle") == 0);
    MUST(zelamiku_heap_open(&heap, "circle", &plan, NULL) == ZELAMIKU_DEVICE && last_failure().error == ELOOP);
    /* Where a path leads is found whatever was in the memory for it before. */
    static char real_one[2 * PATH_MAX];
    memset(real_one, '/', sizeof real_one - 1);
    MUST(find_new_path("real/new one", real_one) && strlen(real_one) < PATH_MAX && strcmp(real_one + strlen(real_one) - 13, "/real/new one") == 0);
    MUST(real_one[strlen(real_one) - 14] != '/' && !find_real_path("spare/below", real_one) && errno == ENOTDIR);
}

/* ---- copies ---- */

static uint64_t value_at(const char *path) {
    zelamiku_heap heap;
    MUST(zelamiku_heap_open(&heap, path, &plan, NULL) == ZELAMIKU_OK);
    uint64_t value = add(heap, 0);
    MUST(zelamiku_heap_close(heap) == ZELAMIKU_OK);
    return value;
}

static zelamiku_status opened_meanwhile;

static void open_copy(void) {
    zelamiku_heap other;
    opened_meanwhile = zelamiku_heap_open(&other, "copy", &plan, NULL);
}

static void remove_copy(void) {
    MUST(unlink("copy") == 0);
}

static void replace_draft(void) {
    before_lock = NULL;
    MUST(rename("copy.heapctl-new", "moved") == 0);
    make_file_of("copy.heapctl-new", "other", 5, 0600);
}

/* Whether root may write to files that their modes forbid. */
static void override_modes(bool may) {
    struct __user_cap_header_struct of = {_LINUX_CAPABILITY_VERSION_3, 0};
    struct __user_cap_data_struct rights[2];
    MUST(syscall(SYS_capget, &of, rights) == 0);
    rights[0].effective = may ? rights[0].permitted : rights[0].effective & ~(1u << CAP_DAC_OVERRIDE);
    MUST(syscall(SYS_capset, &of, rights) == 0);
}

static pid_t lasting;

/* A child that lives on keeps no lock, whether it has run yet or not: in the one that the system alone makes no handler of a fork runs. It goes
 * with the test. */
static void let_live(pid_t child) {
    MUST(child >= 0);
    if (child == 0) _exit(prctl(PR_SET_PDEATHSIG, SIGKILL) == 0 ? pause() : 1);
    lasting = child;
}

static void leave_child(void) {
    let_live(fork());
}

static void leave_child_that_has_not_run(void) {
    let_live((pid_t)syscall(SYS_fork));
}

/* A copy and an open of its path keep each other out, and so do two copies, from when the copy begins until it is in its place. */
static void copies(void) {
    zelamiku_heap heap, other;
    life();
    MUST(open_heap(&heap) == ZELAMIKU_OK && zelamiku_heap_copy(heap, "copy") == ZELAMIKU_OK && value_at("copy") == 8);
    MUST(mode_made == 0600); /* nobody else reads a copy before it has the heap's own rights */
    MUST(chmod("heap", 0640) == 0 && zelamiku_heap_open(&other, "copy", &plan, NULL) == ZELAMIKU_OK && add(other, 1) == 9);
    MUST(zelamiku_heap_copy(heap, "copy") == ZELAMIKU_BUSY && zelamiku_heap_close(other) == ZELAMIKU_OK && value_at("copy") == 9);
    before_rename = open_copy;
    MUST(zelamiku_heap_copy(heap, "copy") == ZELAMIKU_OK && opened_meanwhile == ZELAMIKU_BUSY && value_at("copy") == 8);
    MUST(mode_of("copy") == 0640 && chmod("copy", 0444) == 0);
    before_rename = NULL;
    /* One that may only be read is replaced as any other. */
    override_modes(false);
    zelamiku_status status = zelamiku_heap_copy(heap, "copy");
    override_modes(true);
    MUST(status == ZELAMIKU_OK && mode_of("copy") == 0640 && value_at("copy") == 8 && unlink("copy") == 0);
    /* What a copy that was cut off has left is taken up, and not while another one has it. */
    make_file_of("copy.heapctl-new", "left", 4, 0400);
    MUST(zelamiku_heap_copy(heap, "copy") == ZELAMIKU_OK && is_missing("copy.heapctl-new") && value_at("copy") == 8);
    make_file_of("copy.heapctl-new", "left", 4, 0600);
    int file = open("copy.heapctl-new", O_RDWR | O_CLOEXEC);
    MUST(file >= 0 && flock(file, LOCK_EX | LOCK_NB) == 0 && zelamiku_heap_copy(heap, "copy") == ZELAMIKU_BUSY);
    MUST(strstr(zelamiku_heap_failure(NULL), "copy: copy: a heap, a copy or an image is being made there") != NULL);
    MUST(zelamiku_heap_open(&other, "copy", &plan, NULL) == ZELAMIKU_OK && zelamiku_heap_close(other) == ZELAMIKU_OK && unlink("copy") == 0);
    MUST(zelamiku_heap_open(&other, "copy", &plan, NULL) == ZELAMIKU_BUSY && is_missing("copy") && close(file) == 0);
    /* Or it goes, or another one takes its name, while it is opened. */
    draft_goes = true;
    MUST(zelamiku_heap_copy(heap, "copy") == ZELAMIKU_OK && !draft_goes && is_missing("copy.heapctl-new"));
    MUST(unlink("copy") == 0);
    before_lock = replace_draft;
    MUST(zelamiku_heap_copy(heap, "copy") == ZELAMIKU_OK && before_lock == NULL && is_missing("copy.heapctl-new"));
    MUST(unlink("moved") == 0);
    before_rename = remove_copy;
    MUST(zelamiku_heap_copy(heap, "copy") == ZELAMIKU_OK && value_at("copy") == 8);
    for (int has_run = 0; has_run < 2; has_run++) {
        before_rename = has_run ? leave_child : leave_child_that_has_not_run;
        MUST(zelamiku_heap_copy(heap, "copy") == ZELAMIKU_OK && value_at("copy") == 8);
        MUST(kill(lasting, SIGKILL) == 0 && waitpid(lasting, NULL, 0) == lasting);
    }
    before_rename = NULL;
    MUST(zelamiku_heap_close(heap) == ZELAMIKU_OK && chmod("heap", 0600) == 0);
}

/* Each write, sync and rename of a copy fails in turn, and the path has what was there before; where the folder's sync fails, the new copy. The
 * copy's bytes are synced before it is renamed. */
static void failing_copies(void) {
    zelamiku_heap heap;
    for (int call = 1;; call++) {
        life();
        MUST(open_heap(&heap) == ZELAMIKU_OK && zelamiku_heap_copy(heap, "copy") == ZELAMIKU_OK && add(heap, 1) == 9);
        step_count = 0;
        records = 1;
        fails_in = call;
        zelamiku_status status = zelamiku_heap_copy(heap, "copy");
        int left = fails_in, last = step_count - 1;
        records = fails_in = 0;
        bool is_new = status == ZELAMIKU_OK || strstr(zelamiku_heap_failure(NULL), "copy: copy: the new copy is at the path, but its folder") != NULL;
        MUST(status == ZELAMIKU_OK || (status == ZELAMIKU_DEVICE && last_failure().error == ENOSPC));
        MUST(is_missing("copy.heapctl-new") && zelamiku_heap_close(heap) == ZELAMIKU_OK && value_at("copy") == (is_new ? 9 : 8));
        if (status == ZELAMIKU_OK) MUST(steps[last].kind == FOLDER_SYNCED && steps[last - 1].kind == RENAMED && steps[last - 2].kind == SYNCED);
        while (step_count > 0) free(steps[--step_count].bytes);
        MUST(unlink("copy") == 0);
        if (left > 0) break;
        MUST(status == ZELAMIKU_DEVICE);
    }
}

/* ---- a file that goes ---- */

static _Atomic unsigned warnings;

static void count_warnings(void *of, uint32_t level, const char *text) {
    (void)of;
    warnings += level == ZELAMIKU_LOG_WARNING && strstr(text, "the path doesn't lead to the heap's file any more") != NULL;
}

/* What the next look tells: there is one each second, while rounds are made. */
static uint32_t astray_after(zelamiku_heap heap) {
    const struct heap *of = &heaps[heap.number >> 8 & 255];
    uint64_t before = of->path_checked; /* nobody leads now */
    UNTIL(add(heap, 0) > 0 && of->path_checked != before);
    return stats_now(heap).is_astray;
}

/* A file that is removed, or replaced, while its heap is open, by a path from the folder that the process was in: it is told once, and the heap
 * goes on. */
static void astray(void) {
    zelamiku_heap heap;
    zelamiku_plan told = plan;
    told.log = count_warnings;
    remove_file();
    MUST(zelamiku_heap_open(&heap, "heap", &told, NULL) == ZELAMIKU_OK && chdir("real") == 0);
    MUST(astray_after(heap) == 0 && warnings == 0);
    uint64_t looked = heaps[heap.number >> 8 & 255].path_checked;
    MUST(add(heap, 0) > 0 && (heaps[heap.number >> 8 & 255].path_checked == looked || zelamiku_now() - looked >= SECOND)); /* once a second */
    MUST(rename("../heap", "../moved") == 0 && astray_after(heap) == 1 && astray_after(heap) == 1 && warnings == 1);
    MUST(rename("../moved", "../heap") == 0 && astray_after(heap) == 0 && warnings == 1);
    /* Of a circle of links nothing is known. A file of another file system is another one. */
    MUST(rename("../heap", "../moved") == 0 && symlink("heap", "../heap") == 0 && astray_after(heap) == 0 && warnings == 1);
    MUST(unlink("../heap") == 0 && symlink("/dev/null", "../heap") == 0 && astray_after(heap) == 1 && warnings == 2);
    MUST(rename("../moved", "../heap") == 0 && astray_after(heap) == 0);
    make_file_of("../other", "", 0, 0600);
    MUST(rename("../other", "../heap") == 0 && astray_after(heap) == 1 && warnings == 3);
    MUST(zelamiku_heap_close(heap) == ZELAMIKU_OK && chdir("..") == 0);
}

/* While another file has the path's heap, or did, whoever asks for it in this process is refused. */
static void must_stay_alone(void) {
    zelamiku_heap other;
    MUST(open_heap(&other) == ZELAMIKU_BUSY && strstr(zelamiku_heap_failure(NULL), "this process has its heap open already") != NULL);
    MUST(zelamiku_heap_open(&other, "spare", &plan, NULL) == ZELAMIKU_OK && zelamiku_heap_copy(other, "heap") == ZELAMIKU_BUSY);
    MUST(zelamiku_heap_close(other) == ZELAMIKU_OK);
}

/* The program has closed the heap's descriptor, before a round or at this sync of it. Another file may have its number, or the program's own open
 * of the same file. What doesn't go to the heap's file by the heap's open isn't told as durable. Nothing goes to the other one once that is
 * known, and it stays open. There is no lock any more, and no second heap of the file in this process. The heap can be opened again. */
static void closed_by_the_program(int at, const char *reused_for) {
    zelamiku_heap heap;
    zelamiku_thread own;
    struct stat info;
    life();
    MUST(open_heap(&heap) == ZELAMIKU_OK && zelamiku_thread_begin(&own, heap) == ZELAMIKU_OK);
    int file = heaps[heap.number >> 8 & (ZELAMIKU_MOST_HEAPS - 1)].file;
    stolen_for = reused_for;
    if (at == 0 && reused_for != NULL) {
        steal(file);
        MUST(child_has(reused_for)); /* a fork closes it in no child */
    }
    if (reused_for == NULL) MUST(close(file) == 0);
    if (at == 0) must_stay_alone();
    stolen_at = at;
    MUST(zelamiku_thread_enter(own, 0) == ZELAMIKU_OK && zelamiku_thread_store(own, 0, 100) == ZELAMIKU_OK);
    MUST(zelamiku_thread_exit(own, 0) == ZELAMIKU_OK && zelamiku_thread_await(own) == ZELAMIKU_LOST && last_failure().error == EBADF);
    MUST(zelamiku_thread_end(own) == ZELAMIKU_LOST && zelamiku_heap_close(heap) == ZELAMIKU_LOST && stolen_at == 0);
    if (reused_for != NULL) MUST(fstat(file, &info) == 0 && close(file) == 0);
    if (reused_for != NULL && strcmp(reused_for, "notes") == 0) MUST(info.st_size == 0 && unlink("notes") == 0);
    uint64_t value = found();
    MUST(value == 8 || (at > 0 && value == 100));
}

/* The same before a close that has nothing to wait for: it writes nothing to the other file. */
static void closed_before_the_close(void) {
    zelamiku_heap heap;
    struct stat info;
    life();
    MUST(open_heap(&heap) == ZELAMIKU_OK && add(heap, 1) == 9);
    int file = heaps[heap.number >> 8 & (ZELAMIKU_MOST_HEAPS - 1)].file;
    stolen_for = "notes";
    steal(file);
    MUST(zelamiku_heap_close(heap) == ZELAMIKU_OK && fstat(file, &info) == 0 && info.st_size == 0 && close(file) == 0 && unlink("notes") == 0);
    MUST(found() == 9);
}

/* ---- block devices ---- */

/* A loop device over a file of so many zeros; -1: there is none. Closing the last descriptor of it lets the file go. */
static int make_volume(char *path, size_t size, off_t bytes) {
    const struct loop_info64 info = {.lo_flags = LO_FLAGS_AUTOCLEAR};
    int control = open("/dev/loop-control", O_RDWR | O_CLOEXEC), volume = -1;
    int file = open("volume", O_RDWR | O_CREAT | O_TRUNC | O_CLOEXEC, 0600);
    MUST(file >= 0 && ftruncate(file, bytes) == 0);
    for (int tries = 0; tries < 20 && control >= 0 && volume < 0; tries++) {
        (void)snprintf(path, size, "/dev/loop%d", ioctl(control, LOOP_CTL_GET_FREE));
        volume = open(path, O_RDWR | O_CLOEXEC);
        if (volume < 0 || (ioctl(volume, LOOP_SET_FD, file) == 0 && ioctl(volume, LOOP_SET_STATUS64, &info) == 0)) continue;
        (void)close(volume); /* another one has just taken it */
        volume = -1;
    }
    if (control >= 0) (void)close(control);
    MUST(close(file) == 0);
    return volume;
}

/* A heap on a block device: made in place where that has zeros, had by one open alone, and found again. What isn't free is left as it is. */
static void volumes(void) {
    enum { BYTES = 1 << 20 };
    char path[32];
    uint8_t before[4096], after[4096];
    zelamiku_heap heap, other;
    zelamiku_plan usual = plan;
    int volume = make_volume(path, sizeof path, BYTES);
    if (volume < 0) {
        printf("LEFT OUT: no loop device: a heap on a block device\n");
        return;
    }
    plan.must_exist = 1;
    MUST(zelamiku_heap_open(&heap, path, &plan, NULL) == ZELAMIKU_NO_HEAP && strstr(zelamiku_heap_failure(NULL), "there is no heap") != NULL);
    plan = usual;
    plan.capacity = 65536;
    MUST(zelamiku_heap_open(&heap, path, &plan, NULL) == ZELAMIKU_TOO_SMALL && strstr(zelamiku_heap_failure(NULL), "the device has 1048576 bytes") != NULL);
    plan = usual;
    MUST(zelamiku_heap_open(&heap, path, &plan, &report) == ZELAMIKU_OK && report.is_made == 1 && add(heap, 2) == 7);
    MUST(zelamiku_heap_open(&other, path, &plan, NULL) == ZELAMIKU_BUSY && strstr(zelamiku_heap_failure(NULL), "the device is in use") != NULL);
    MUST(open(path, O_RDWR | O_EXCL | O_CLOEXEC) == -1 && errno == EBUSY);
    MUST(zelamiku_heap_copy(heap, "copy of a volume") == ZELAMIKU_OK && mode_of("copy of a volume") == 0600);
    MUST(zelamiku_heap_copy(heap, path) == ZELAMIKU_DEVICE && zelamiku_heap_stop(heap, ZELAMIKU_ABANDONED) == ZELAMIKU_OK);
    MUST(zelamiku_heap_open(&heap, path, &plan, &report) == ZELAMIKU_OK && report.is_made == 0 && add(heap, 1) == 8);
    MUST(zelamiku_heap_close(heap) == ZELAMIKU_OK);
    /* Another user may not open it. */
    MUST(seteuid(65534) == 0 && zelamiku_heap_open(&heap, path, &plan, NULL) == ZELAMIKU_DEVICE);
    MUST(last_failure().error == EACCES && seteuid(0) == 0 && pwrite(volume, "x", 1, 0) == 1 && pread(volume, before, sizeof before, 0) == sizeof before);
    MUST(zelamiku_heap_open(&heap, path, &plan, NULL) == ZELAMIKU_NOT_FORMATTED);
    MUST(pread(volume, after, sizeof after, 0) == sizeof after && memcmp(before, after, sizeof before) == 0 && close(volume) == 0);
    MUST(zelamiku_heap_open(&heap, "copy of a volume", &plan, NULL) == ZELAMIKU_OK && add(heap, 0) == 7 && zelamiku_heap_close(heap) == ZELAMIKU_OK);
    MUST(unlink("copy of a volume") == 0 && unlink("volume") == 0);
}

int main(int argc, char **argv) {
    unsigned inherited, before = descriptors(&inherited);
    MUST(argc == 2 && chdir(argv[1]) == 0);
    rights();
    life();
    old();
    others();
    beside_others();
    waits_for_a_volume();
    sizes();
    rings();
    lanes();
    openings();
    int makings = failing_makings(), crashes = cut_off_makings(), old_crashes = old_makings(), killed = killed_makings(makings);
    MUST(makings > 5 && killed >= 2);
    copies();
    failing_copies();
    at_once();
    slow_opens();
    links();
    astray();
    volumes();
    closed_by_the_program(0, NULL);
    closed_by_the_program(0, "notes");
    closed_by_the_program(0, "heap");
    closed_by_the_program(0, "/dev/null");
    closed_by_the_program(2, "notes");
    closed_by_the_program(2, "heap");
    closed_before_the_close();
    moves_one_byte = 1;
    remove_file();
    life();
    old();
    copies();
    openings();
    MUST(descriptors(&inherited) == before);
    printf("file: lives, an old image, other opens, a block device, large files, rings, the helper's lane, links, a file that goes, one that the program"
           " closes, a fault at each of %d calls of a making, %d crashes of a making, %d of one in place, %d kills (%d before the heap was there), and"
           " calls that are short and interrupted\n",
           makings, crashes, old_crashes, 2 * makings + TIMED_KILLS, killed);
    return 0;
}
