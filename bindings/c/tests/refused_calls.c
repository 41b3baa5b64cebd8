/* Each call of the system that zelamiku_threads.c makes is refused in turn: memory, files, locks, links, threads, events. A life of a heap is lived
 * once for each. One call reports the refusal, with its cause, or all go on without what was refused. Nothing that was told durable is lost, no file is
 * left beside, no memory is kept, and the next life has all again.
 *
 *     refused_calls FOLDER      prints how many calls were refused, and answers 0, where all is as it must be */
#define _GNU_SOURCE
#define ZELAMIKU_HALF 2 /* pages */
#include <errno.h>
#include <fcntl.h>
#include <libgen.h>
#include <malloc.h>
#include <pthread.h>
#include <stdarg.h>
#include <stdatomic.h>
#include <stdbool.h>
#include <stdio.h>
#include <stdlib.h>
#include <string.h>
#include <sys/eventfd.h>
#include <sys/file.h>
#include <sys/prctl.h>
#include <sys/stat.h>
#include <sys/syscall.h>
#include <sys/wait.h>
#include <unistd.h>
#include "memory.h"

static _Atomic unsigned long turn;  /* calls of the life that is lived */
static _Atomic unsigned long refused_one; /* which of them; 0: none */
static _Atomic int with;            /* errno */
static _Atomic bool must_be_told;   /* that call is a sync, or finds out a path: one call must report it */
static _Atomic long blocks;         /* of memory that are allocated */

static bool refuses(int error) {
    if (refused_one == 0 || ++turn != refused_one) return false;
    with = errno = error;
    return true;
}

/* Functions in place of the system's: so each line of the scheduler's C has the branches that it has by itself (tools/coverage). */
static void *counted(void *block) {
    blocks += block != NULL;
    return block;
}
static void *refused_malloc(size_t size) {
    return refuses(ENOMEM) ? NULL : counted(malloc(size));
}
static void *refused_calloc(size_t count, size_t size) {
    return refuses(ENOMEM) ? NULL : counted(calloc(count, size));
}
static void *refused_aligned(size_t line, size_t size) {
    return refuses(ENOMEM) ? NULL : counted(aligned_alloc(line, size));
}
static char *refused_strdup(const char *text) {
    return refuses(ENOMEM) ? NULL : (char *)counted(strdup(text));
}
static void counted_free(void *block) {
    blocks -= block != NULL;
    free(block);
}
static int strange_close(int file) {
    int answer = close(file);
    errno = ENOEXEC; /* a call that succeeds may leave any errno */
    return answer;
}
static bool is_in_use, replaces; /* what is at a path is a device that another has; it is replaced as soon as it is locked */
static int refused_open(const char *path, int flags, ...) {
    va_list words;
    va_start(words, flags);
    mode_t mode = (flags & O_CREAT) != 0 ? (mode_t)va_arg(words, int) : 0;
    va_end(words);
    if (is_in_use && (flags & O_EXCL) != 0) return errno = EBUSY, -1;
    return refuses(EACCES) ? -1 : open(path, flags, mode);
}
static int refused_fcntl(int file, int how, ...) {
    va_list words;
    va_start(words, how);
    int word = how != F_GETSIG ? va_arg(words, int) : 0;
    va_end(words);
    return how == F_SETSIG && refuses(ENOMEM) ? -1 : fcntl(file, how, word);
}
static int refused_stat(const char *path, struct stat *info) {
    if (refuses(EIO) || stat(path, info) != 0) return -1;
    if (is_in_use) info->st_mode = S_IFBLK;
    return 0;
}
static int refused_fstat(int file, struct stat *info) {
    return refuses(EIO) ? -1 : fstat(file, info);
}
static int refused_flock(int file, int how) {
    if (replaces && how != LOCK_UN) replaces = rename("another", "heap") != 0;
    return refuses(ENOLCK) ? -1 : flock(file, how);
}
static off_t refused_lseek(int file, off_t at, int from) {
    return refuses(EIO) ? -1 : lseek(file, at, from);
}
static ssize_t refused_pread(int file, void *bytes, size_t size, off_t at) {
    return refuses(EIO) ? -1 : pread(file, bytes, size, at);
}
static ssize_t refused_pwrite(int file, const void *bytes, size_t size, off_t at) {
    return refuses(ENOSPC) ? -1 : pwrite(file, bytes, size, at);
}
static bool refuses_sync(void) {
    bool is_refused = refuses(EIO);
    must_be_told |= is_refused;
    return is_refused;
}
static int refused_fdatasync(int file) {
    return refuses_sync() ? -1 : fdatasync(file);
}
static int refused_fsync(int file) {
    return refuses_sync() ? -1 : fsync(file);
}
static void fork_now(void);
static bool forks; /* at the next rename */
static int refused_syncfs(int file) {
    return refuses(EIO) ? -1 : syncfs(file);
}
static int refused_rename(const char *from, const char *to) {
    if (forks) fork_now();
    return refuses(EIO) ? -1 : rename(from, to);
}
static char *refused_realpath(const char *path, char *real) {
    bool is_refused = refuses(EACCES);
    must_be_told |= is_refused;
    return is_refused ? NULL : realpath(path, real);
}
static ssize_t refused_readlink(const char *path, char *bytes, size_t size) {
    return refuses(EIO) ? -1 : readlink(path, bytes, size);
}
static char *refused_getcwd(char *folder, size_t size) {
    if (!refuses(EACCES)) return getcwd(folder, size);
    (void)snprintf(folder, size, "nowhere");
    return NULL;
}
static int refused_fchmod(int file, mode_t mode) {
    return refuses(EPERM) ? -1 : fchmod(file, mode);
}
static int refused_fchown(int file, uid_t user, gid_t group) {
    return refuses(EPERM) ? -1 : fchown(file, user, group);
}
static int refused_eventfd(unsigned count, int how) {
    return refuses(EMFILE) ? -1 : eventfd(count, how);
}
static bool no_threads; /* each is refused */
static int refused_thread(pthread_t *thread, const pthread_attr_t *how, void *(*body)(void *), void *data) {
    return no_threads || refuses(EAGAIN) ? EAGAIN : pthread_create(thread, how, body, data);
}
/* These calls were made, and return that they weren't: of syscall those that ask for slices. */
static int refused_prctl(int answer) {
    return refuses(EPERM) ? -1 : answer;
}
static long refused_syscall(long number, long answer) {
    bool is_of_slices = number == SYS_sched_getattr || number == SYS_sched_setattr;
    return is_of_slices && refuses(EPERM) ? -1 : answer;
}

#define malloc refused_malloc
#define calloc refused_calloc
#define aligned_alloc refused_aligned
#define strdup refused_strdup
#define free counted_free
#define close strange_close
#define open refused_open
#define fcntl refused_fcntl
#define stat(path, info) refused_stat(path, info)
#define fstat refused_fstat
#define flock(file, how) refused_flock(file, how)
#define lseek refused_lseek
#define pread refused_pread
#define pwrite refused_pwrite
#define fdatasync refused_fdatasync
#define fsync refused_fsync
#define syncfs refused_syncfs
#define rename refused_rename
#define realpath refused_realpath
#define readlink refused_readlink
#define getcwd refused_getcwd
#define fchmod refused_fchmod
#define fchown refused_fchown
#define eventfd refused_eventfd
#define pthread_create refused_thread
#define prctl(...) refused_prctl(prctl(__VA_ARGS__))
#define syscall(number, ...) refused_syscall(number, syscall(number, __VA_ARGS__))
#include "../zelamiku_threads.c"
#undef stat
#undef open
#undef fcntl
#undef rename
#undef malloc
#undef free
#undef close

/* The proved library's memory, in place of the kit's own functions for it. */
typedef struct {
    uint64_t is_there;
    void *at;
} allocated;

static allocated allocated_by(void *old, size_t size) {
    static max_align_t nothing;
    void *at = refuses(ENOMEM) ? NULL : realloc(old, size);
    blocks += old == NULL && at != NULL;
    return (allocated){at != NULL, at != NULL ? at : &nothing};
}

allocated rattle_alloc(size_t size, size_t least) {
    return allocated_by(NULL, size > 0 ? size : least);
}

allocated rattle_realloc(void *old, size_t before, size_t size, size_t least) {
    (void)before;
    return allocated_by(old, size > 0 ? size : least);
}

void rattle_dealloc(void *old) {
    blocks -= old != NULL;
    free(old);
}

#define SAY_MORE() fprintf(stderr, "call %lu is refused, errno %d: ", (unsigned long)refused_one, (int)with)
#include "must.h"

enum { OBJECTS_THERE = 2, FIELDS_THERE = 3, LIVES = 9 };
static const zelamiku_field FIELDS[FIELDS_THERE] = {{0, 0, 10, 0}, {1, 1, 20, 0}, {1, 1, 30, 1}};
static const zelamiku_plan PLAN = {.size = sizeof(zelamiku_plan), .fields = FIELDS, .count = FIELDS_THERE, .objects = OBJECTS_THERE, .lanes = 2, .capacity = 2000, .ring = 4096};
static uint64_t kept, tried; /* the value that is durable, and one that may be */

/* How a life begins. */
typedef enum { NO_FILE, ZEROS, A_HEAP, BY_A_LINK, REVERTS, A_DEVICE, A_DEVICE_FOR_A_JOURNAL, NO_FILE_FOR_A_JOURNAL, A_JOURNAL } beginning;
static const char *const BEGINNINGS[LIVES] = {"no file", "a file of zeros", "a heap", "a link to no file", "a heap that reverts", "a device of zeros",
                                              "a device of zeros for a journal", "no file, for a journal", "a heap with a journal"};
static memory held; /* the device */

static bool is_on_device(beginning how) { return how == A_DEVICE || how == A_DEVICE_FOR_A_JOURNAL; }

static bool has_journal(beginning how) { return how >= A_DEVICE_FOR_A_JOURNAL; }

static bool is_there(beginning how) { return how == A_HEAP || how == REVERTS || how == A_JOURNAL; }

static bool is_missing(const char *path) {
    struct stat info;
    return lstat(path, &info) != 0 && errno == ENOENT;
}

static zelamiku_status told; /* what the first call of this life that failed returned */
static unsigned stopped;     /* how many lives' heaps have ended for want of memory */

/* Whether the status and its cause are those of the call that was refused. */
static bool is_of_refusal(zelamiku_status status) {
    if (status == ZELAMIKU_LOST && with == ENOMEM) return false; /* no sync has failed */
    if ((status == ZELAMIKU_NO_MEMORY || status == ZELAMIKU_FAILED) && with == ENOMEM) return last_failure().error == 0 || last_failure().error == ENOMEM;
    return (status == ZELAMIKU_NO_MEMORY || status == ZELAMIKU_DEVICE || status == ZELAMIKU_LOST) && last_failure().error == with;
}

static bool has_ended(zelamiku_status status) {
    return status == ZELAMIKU_LOST || status == ZELAMIKU_FAILED;
}

/* OK, or the one call that reports what was refused, and why. Later calls fail only where the heap has ended. */
static bool passes(zelamiku_status status) {
    if (status == ZELAMIKU_OK) return true;
    MUST(with != 0 && zelamiku_heap_failure(NULL)[0] != 0);
    if (told == ZELAMIKU_OK) MUST(is_of_refusal(status));
    else MUST(has_ended(told) && status == told);
    stopped += told != status && status == ZELAMIKU_FAILED;
    told = status;
    return false;
}

static void leave_file(const char *path) {
    int file = open(path, O_RDWR | O_CREAT | O_CLOEXEC, 0640);
    MUST(file >= 0 && ftruncate(file, 5000) == 0 && close(file) == 0);
}

static void begin_life(beginning how) {
    static const char *const ALL[] = {"heap", "copy", "link to come"};
    for (size_t i = 0; i < sizeof ALL / sizeof *ALL && !is_there(how); i++) (void)unlink(ALL[i]);
    if (how == ZEROS) leave_file("heap");
    if (how == BY_A_LINK) MUST(symlink("link to come", "heap") == 0);
    if (how == A_HEAP) leave_file("copy.heapctl-new"); /* as a copy that was cut off */
    if (is_on_device(how)) memset(held.now, 0, held.size);
    if (!is_there(how)) kept = tried = 10;
}

/* One section more, and whether it is durable. */
static void add_one(zelamiku_heap heap, zelamiku_thread own, bool is_journaled) {
    uint64_t durable = 0;
    int event = -1;
    MUST(zelamiku_thread_enter(own, 0) == ZELAMIKU_OK && zelamiku_thread_store(own, 0, tried + 1) == ZELAMIKU_OK);
    MUST(zelamiku_thread_exit(own, 0) == ZELAMIKU_OK);
    tried++;
    MUST(passes(zelamiku_thread_event(own, &event)) ? event > STDERR_FILENO : event == -1);
    if (passes(zelamiku_thread_ask(own, &durable)) && durable > 0) kept = tried;
    bool is_kept = passes(zelamiku_thread_await(own));
    bool is_again = !is_kept && told == ZELAMIKU_DEVICE; /* the write is made again */
    if (is_again) is_kept = passes(zelamiku_thread_await(own));
    if (is_kept) kept = tried;
    if (!is_again) return;
    UNTIL(stats_now(heap).rounds > stats_now(heap).troubles); /* a round is counted after its sections */
    MUST(stats_now(heap).one_sync_rounds == is_journaled && stats_now(heap).two_sync_rounds == !is_journaled);
}

/* The heap wasn't opened. Only the last step of a making, the folder's sync, leaves a heap where there was a free file. */
static void must_be_as_before(beginning how, zelamiku_status status) {
    struct stat info;
    bool may_be_made = status == ZELAMIKU_NO_MEMORY || strstr(zelamiku_heap_failure(NULL), "its folder can't be synced") != NULL;
    if (status == ZELAMIKU_DEVICE && (how == NO_FILE || how == NO_FILE_FOR_A_JOURNAL)) MUST(is_missing("heap"));
    if (status == ZELAMIKU_DEVICE && how == BY_A_LINK) MUST(is_missing("link to come"));
    if (how == ZEROS) MUST(lstat("heap", &info) == 0 && (may_be_made || info.st_size == 5000));
}

/* A copy is there, or what was there before: `is_new` says that it is there though its folder can't be synced. */
static void copy_one(zelamiku_heap heap) {
    struct stat before, after;
    bool was_there = lstat("copy", &before) == 0;
    zelamiku_status status = zelamiku_heap_copy(heap, "copy");
    bool is_new = status == ZELAMIKU_OK || strstr(zelamiku_heap_failure(NULL), "copy: copy: the new copy is at the path, but its folder") != NULL;
    bool is_now = lstat("copy", &after) == 0;
    MUST(is_new ? is_now : is_now == was_there && (!is_now || before.st_ino == after.st_ino));
    if (passes(status)) MUST(!was_there || before.st_ino != after.st_ino);
}

/* Whether no memory is in use but what a place keeps until the next heap has it. All heaps are closed. */
static bool has_freed_all(void) {
    long kept_there = 0;
    for (size_t place = 1; place < ZELAMIKU_MOST_HEAPS; place++) kept_there += (heaps[place].path != NULL) + (heaps[place].where != NULL);
    return blocks == kept_there;
}

/* Which fields are transient is known, and where the file is, or that nobody knows. */
static void must_know_itself(zelamiku_heap handle) {
    heap *of = &heaps[handle.number >> 8 & 255];
    MUST(of->transient != NULL && (of->where == NULL || access(of->where, F_OK) == 0));
}

static void live(beginning how) {
    zelamiku_heap heap;
    zelamiku_thread own;
    zelamiku_plan plan = PLAN;
    zelamiku_device device = device_of(&held);
    plan.reverts = how == REVERTS;
    if (is_on_device(how)) plan.device = &device;
    plan.atomic_sectors = has_journal(how);
    if (how == NO_FILE) plan.lanes = 0; /* as many as there are by default: more than the others want */
    zelamiku_status opened = zelamiku_heap_open(&heap, "heap", &plan, NULL);
    if (!passes(opened)) {
        MUST(heap.number == 0);
        must_be_as_before(how, opened);
        return;
    }
    must_know_itself(heap);
    if (passes(zelamiku_thread_begin(&own, heap))) add_one(heap, own, has_journal(how));
    copy_one(heap);
    zelamiku_status status = zelamiku_thread_end(own);
    MUST(status == ZELAMIKU_OK || (has_ended(status) && !passes(status)));
    bool stops = has_ended(told) && refused_one % 2 == 0; /* that returns why it has ended, too */
    if (!passes(stops ? zelamiku_heap_stop(heap, ZELAMIKU_CLOSED) : zelamiku_heap_close(heap)) && told == ZELAMIKU_DEVICE) MUST(zelamiku_heap_close(heap) == ZELAMIKU_OK);
}

/* Nothing is refused any more: the heap is there, or can be made, and has what was durable. A copy takes up what one that was cut off has left. */
static void look(beginning how) {
    zelamiku_heap heap;
    zelamiku_thread own;
    uint64_t value;
    zelamiku_plan plan = PLAN;
    zelamiku_device device = device_of(&held);
    refused_one = 0;
    if (is_on_device(how)) plan.device = &device;
    plan.atomic_sectors = has_journal(how);
    zelamiku_status status = zelamiku_heap_open(&heap, "heap", &plan, NULL);
    if (how == A_HEAP) MUST(zelamiku_heap_copy(heap, "copy") == ZELAMIKU_OK);
    MUST(is_missing("heap.heapctl-new") && is_missing("copy.heapctl-new") && is_missing("link to come.heapctl-new"));
    MUST(status == ZELAMIKU_OK && zelamiku_thread_begin(&own, heap) == ZELAMIKU_OK && zelamiku_thread_enter(own, 0) == ZELAMIKU_OK);
    MUST(zelamiku_thread_load(own, 0, &value) == ZELAMIKU_OK && (value == kept || value == tried));
    kept = tried = value;
    MUST(zelamiku_thread_exit(own, 0) == ZELAMIKU_OK && zelamiku_thread_end(own) == ZELAMIKU_OK && zelamiku_heap_close(heap) == ZELAMIKU_OK);
}

/* In the midst of a copy a child is forked: it has none of the files, whose locks it would keep. */
static void fork_now(void) {
    int status = 0;
    forks = false;
    pid_t child = fork();
    if (child == 0) {
        struct stat info;
        for (int file = 3; file < 100; file++)
            if (fstat(file, &info) == 0 && S_ISREG(info.st_mode)) _exit(1);
        /* What the child opens, by the numbers that they had, its own child keeps. */
        int files[8];
        for (int i = 0; i < 8; i++) files[i] = open("/dev/null", O_RDONLY);
        pid_t next = fork();
        for (int i = 0; i < 8 && next == 0; i++)
            if (fstat(files[i], &info) != 0) _exit(2);
        _exit(next == 0 || (next > 0 && waitpid(next, &status, 0) == next && status == 0) ? 0 : 3);
    }
    MUST(child > 0 && waitpid(child, &status, 0) == child && status == 0);
}

/* ---- more than usual ---- */

/* A heap whose thread can't be started is closed again, and keeps no memory. */
static void no_helper(void) {
    zelamiku_heap heap;
    size_t before = 0;
    no_threads = true;
    for (int i = 0; i < 20; i++) {
        MUST(zelamiku_heap_open(&heap, "heap", &PLAN, NULL) == ZELAMIKU_NO_MEMORY && last_failure().error == EAGAIN && heap.number == 0);
        if (i == 1) before = mallinfo2().uordblks;
    }
    UNTIL(mallinfo2().uordblks < before + 20000); /* threads that have ended may take a moment */
    no_threads = false;
}

/* So many sections depend on one that never ends that recovery has to be asked twice for all that it dropped. */
static void many_dropped(void) {
    enum { SECTIONS = 300 };
    zelamiku_heap heap;
    zelamiku_thread holder, own;
    zelamiku_report report = {.size = sizeof report};
    begin_life(NO_FILE);
    MUST(zelamiku_heap_open(&heap, "heap", &PLAN, NULL) == ZELAMIKU_OK);
    MUST(zelamiku_thread_begin(&holder, heap) == ZELAMIKU_OK && zelamiku_thread_begin(&own, heap) == ZELAMIKU_OK);
    MUST(zelamiku_thread_enter(holder, 0) == ZELAMIKU_OK && zelamiku_thread_enter(holder, 1) == ZELAMIKU_OK);
    MUST(zelamiku_thread_store(holder, 1, 5) == ZELAMIKU_OK && zelamiku_thread_exit(holder, 1) == ZELAMIKU_OK);
    for (uint64_t i = 0; i < SECTIONS; i++) {
        MUST(zelamiku_thread_enter(own, 1) == ZELAMIKU_OK && zelamiku_thread_store(own, 1, i) == ZELAMIKU_OK);
        MUST(zelamiku_thread_exit(own, 1) == ZELAMIKU_OK);
    }
    MUST(zelamiku_heap_stop(heap, ZELAMIKU_CLOSED) == ZELAMIKU_OK && zelamiku_thread_exit(holder, 0) == ZELAMIKU_CLOSED);
    MUST(zelamiku_thread_end(holder) == ZELAMIKU_CLOSED && zelamiku_thread_end(own) == ZELAMIKU_CLOSED);
    MUST(zelamiku_heap_open(&heap, "heap", &PLAN, &report) == ZELAMIKU_OK && report.dropped == SECTIONS + 1);
    zelamiku_dropped before = dropped_section(heap, 0);
    for (size_t i = 1; i <= SECTIONS; i++) {
        zelamiku_dropped next = dropped_section(heap, i);
        MUST(next.lane > before.lane || (next.lane == before.lane && next.section == before.section + 1));
        before = next;
    }
    MUST(dropped_section(heap, SECTIONS + 1).why == ZELAMIKU_NOT_DROPPED && zelamiku_heap_close(heap) == ZELAMIKU_OK);
}

/* ---- what the system refuses by itself ---- */

static zelamiku_heap open_one(const char *path) {
    zelamiku_heap heap;
    MUST(zelamiku_heap_open(&heap, path, &PLAN, NULL) == ZELAMIKU_OK);
    return heap;
}

/* The copy isn't written, and the failure says why, and what to do. */
static void no_copy_to(zelamiku_heap heap, const char *path, int error, const char *cure) {
    MUST(zelamiku_heap_copy(heap, path) == ZELAMIKU_DEVICE && last_failure().error == error && strcmp(last_failure().cure, cure) == 0);
}

/* A copy is written to no pipe and no folder, nor to a path that is too long, nor through a link in the place of the file beside. */
static void copies(void) {
    static char long_path[PATH_MAX + 100];
    struct stat info;
    memset(long_path, 'x', sizeof long_path - 1);
    zelamiku_heap heap = open_one("heap");
    MUST(mkfifo("pipe", 0600) == 0 && mkdir("folder", 0700) == 0 && symlink("elsewhere", "new.heapctl-new") == 0);
    MUST(zelamiku_heap_copy(heap, "heap") == ZELAMIKU_BUSY && last_failure().error == 0 && strcmp(last_failure().cause, "a heap of that path is open") == 0);
    no_copy_to(heap, "pipe", EINVAL, "name a regular file");
    no_copy_to(heap, "folder", EISDIR, "name a file");
    no_copy_to(heap, long_path, ENAMETOOLONG, "see the system's error, and call again");
    no_copy_to(heap, "", ENOENT, "make its folder first");
    no_copy_to(heap, "no folder/copy", ENOENT, "make its folder first");
    no_copy_to(heap, "new", ELOOP, "see the system's error, and call again");
    MUST(is_missing("elsewhere") && lstat("new.heapctl-new", &info) == 0 && S_ISLNK(info.st_mode));
    forks = true;
    MUST(zelamiku_heap_copy(heap, "copy") == ZELAMIKU_OK && !forks && zelamiku_heap_close(heap) == ZELAMIKU_OK);
}

/* The open is BUSY, and says why, and what to do. */
static void is_busy(const char *cause, const char *cure) {
    zelamiku_heap heap;
    MUST(zelamiku_heap_open(&heap, "heap", &PLAN, NULL) == ZELAMIKU_BUSY && heap.number == 0 && last_failure().error == 0);
    MUST(strcmp(last_failure().cause, cause) == 0 && strcmp(last_failure().cure, cure) == 0);
}

/* A device that is mounted, and a file that is replaced while it is opened. */
static void others(void) {
    MUST(zelamiku_heap_close(open_one("another")) == ZELAMIKU_OK);
    is_in_use = true;
    is_busy("the device is in use", "unmount it, or end the program that has it");
    is_in_use = false;
    replaces = true;
    is_busy("the file was replaced or removed while it was opened", "open it again");
    MUST(!replaces && is_missing("another") && zelamiku_heap_close(open_one("heap")) == ZELAMIKU_OK);
}

/* A heap is made at the end of a link from the root on, and of one as long as can be. 40 links are too many, as a loop is. */
static void links(void) {
    char name[16], next[16], target[PATH_MAX] = "40";
    zelamiku_heap heap;
    for (int i = 0; i < 40; i++) {
        MUST(snprintf(name, sizeof name, "%d", i) > 0 && snprintf(next, sizeof next, "%d", i + 1) > 0 && symlink(next, name) == 0);
    }
    MUST(zelamiku_heap_open(&heap, "0", &PLAN, NULL) == ZELAMIKU_DEVICE && last_failure().error == ELOOP && is_missing("40"));
    MUST(zelamiku_heap_close(open_one("1")) == ZELAMIKU_OK && !is_missing("40"));
    for (size_t i = 0; i < sizeof target - 5; i += 2) memcpy(target + i, "./", 2);
    MUST(snprintf(target + sizeof target - 6, 6, "whole") == 5 && strlen(target) == PATH_MAX - 1 && symlink(target, "longest link") == 0);
    MUST(zelamiku_heap_close(open_one("longest link")) == ZELAMIKU_OK && !is_missing("whole"));
}

/* Where a link, or the name beside, makes the path too long, no heap is made. */
static void paths(void) {
    char here[PATH_MAX], target[PATH_MAX + 16];
    zelamiku_heap heap;
    MUST(getcwd(here, sizeof here - 1) != NULL && snprintf(target, sizeof target, "%s/far", here) > 0 && symlink(target, "link from the root") == 0);
    MUST(zelamiku_heap_close(open_one("link from the root")) == ZELAMIKU_OK && access("far", F_OK) == 0);
    static char name[201];
    memset(name, 'd', 200);
    MUST(symlink(name, "far link") == 0);
    for (size_t i = 0; i + 2 < sizeof target; i += 2) memcpy(target + i, "./", 2);
    (void)snprintf(target + PATH_MAX - 100, 100, "far link");
    MUST(zelamiku_heap_open(&heap, target, &PLAN, NULL) == ZELAMIKU_DEVICE && last_failure().error == ENAMETOOLONG && is_missing(name));
    for (size_t length = strlen(here); length < PATH_MAX - 8; length = strlen(here)) {
        size_t left = PATH_MAX - 6 - length;
        name[left - 1 < 200 ? left - 1 : left - 1 < 210 ? 150 : 200] = 0;
        MUST(mkdir(name, 0700) == 0 && chdir(name) == 0 && getcwd(here, sizeof here) != NULL);
        memset(name, 'd', 200);
    }
    MUST(zelamiku_heap_open(&heap, "heap", &PLAN, NULL) == ZELAMIKU_DEVICE && last_failure().error == ENAMETOOLONG && is_missing("heap"));
}

/* Statuses have texts, also those that are none, or none of zelamiku.h. */
static void texts(void) {
    static const uint32_t NONE[] = {2, 48, 4711, UINT32_MAX};
    for (size_t i = 0; i < sizeof NONE / sizeof *NONE; i++) MUST(strcmp(zelamiku_status_text(NONE[i]), "no status of zelamiku.h") == 0);
    MUST(strcmp(zelamiku_status_text(ZELAMIKU_OK), "ok") == 0 && strcmp(zelamiku_status_text(ZELAMIKU_NOT_REVERTED), "the section can't be reverted") == 0);
}

int main(int argc, char **argv) {
    unsigned long all = 0;
    MUST(argc == 2 && chdir(argv[1]) == 0 && mkdir("refused calls", 0700) == 0 && chdir("refused calls") == 0);
    texts();
    held = new_memory(1 << 18);
    for (beginning how = NO_FILE; how <= A_JOURNAL; how++) {
        unsigned long one = 0;
        do {
            begin_life(how);
            turn = 0;
            with = 0;
            told = ZELAMIKU_OK;
            must_be_told = false;
            refused_one = ++one;
            live(how);
            bool was_refused = with != 0;
            MUST(!must_be_told || told != ZELAMIKU_OK);
            look(how);
            MUST(has_freed_all());
            if (!was_refused) break;
        } while (one < 5000);
        printf("refused calls: %lu in a life that begins with %s\n", one - 1, BEGINNINGS[how]);
        all += one - 1;
    }
    MUST(all > 100 && stopped > 0);
    free_memory(&held);
    no_helper();
    many_dropped();
    copies();
    others();
    links();
    paths();
    printf("refused calls: %lu, and each was answered or done without\n", all);
    return 0;
}
