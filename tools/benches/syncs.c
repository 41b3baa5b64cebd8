/* Syncs that sleep, for LD_PRELOAD: each sync of a process, and of what it starts, is a sleep of SYNCS_TAKE microseconds, counted in the file that
 * SYNCS names (syncs.h). So tools/bench --syncs measures every store on one disk of known speed. */
#define _GNU_SOURCE
#include <fcntl.h>
#include <stdarg.h>
#include <stdbool.h>
#include <stdio.h>
#include <stdlib.h>
#include <sys/mman.h>
#include <sys/prctl.h>
#include <sys/syscall.h>
#include <time.h>
#include <unistd.h>
#include "syncs.h"

enum { MOST_FILES = 4096 };

static syncs *made;
static uint64_t take;                      /* nanoseconds */
static _Atomic bool has_dsync[MOST_FILES]; /* by descriptor: each write to the file is a sync */

static int open_file(const char *name, int flags, mode_t mode) { return (int)syscall(SYS_openat, AT_FDCWD, name, flags, mode); }

__attribute__((constructor)) static void begin(void) {
    const char *name = getenv("SYNCS"), *microseconds = getenv("SYNCS_TAKE");
    int file = name != NULL && microseconds != NULL ? open_file(name, O_RDWR | O_CREAT | O_CLOEXEC, 0600) : -1;
    if (file >= 0 && ftruncate(file, sizeof *made) == 0) made = mmap(NULL, sizeof *made, PROT_READ | PROT_WRITE, MAP_SHARED, file, 0);
    if (made == NULL || made == MAP_FAILED) {
        fprintf(stderr, "syncs: give SYNCS and SYNCS_TAKE\n");
        _exit(2);
    }
    close(file);
    take = strtoull(microseconds, NULL, 10) * 1000;
}

static uint64_t nanoseconds(void) {
    struct timespec t;
    clock_gettime(CLOCK_MONOTONIC, &t);
    return (uint64_t)t.tv_sec * 1000000000 + (uint64_t)t.tv_nsec;
}

static int sleep_as_sync(void) {
    uint64_t began = nanoseconds(), end = began + take;
    struct timespec until = {.tv_sec = (time_t)(end / 1000000000), .tv_nsec = (long)(end % 1000000000)};
    /* The kernel may wake a thread as late as its slack, which is 50 microseconds. The sleeps of the store itself keep theirs. */
    int slack = prctl(PR_GET_TIMERSLACK);
    (void)prctl(PR_SET_TIMERSLACK, 1ul, 0ul, 0ul, 0ul);
    while (clock_nanosleep(CLOCK_MONOTONIC, TIMER_ABSTIME, &until, NULL) != 0) {}
    (void)prctl(PR_SET_TIMERSLACK, slack, 0ul, 0ul, 0ul);
    uint64_t place = made->count++;
    if (place < SYNCS_KEPT) made->took[place] = (float)(nanoseconds() - began) / 1e3f;
    return 0;
}

int fsync(int file) { return (void)file, sleep_as_sync(); }
int fdatasync(int file) { return (void)file, sleep_as_sync(); }
int sync_file_range(int file, off_t from, off_t size, unsigned flags) { return (void)file, (void)from, (void)size, (void)flags, sleep_as_sync(); }
int msync(void *from, size_t size, int flags) { return (void)from, (void)size, (flags & MS_SYNC) != 0 ? sleep_as_sync() : 0; }

/* LMDB writes its meta page through a descriptor with O_DSYNC, so the disk would sync it. The flag is taken away, and the write sleeps. */
int open(const char *name, int flags, ...) {
    va_list more;
    va_start(more, flags);
    mode_t mode = (flags & O_CREAT) != 0 || (flags & O_TMPFILE) == O_TMPFILE ? va_arg(more, mode_t) : 0;
    va_end(more);
    int file = open_file(name, flags & ~O_SYNC, mode);
    if (file >= 0 && file < MOST_FILES) has_dsync[file] = (flags & O_DSYNC) != 0;
    return file;
}

ssize_t pwrite(int file, const void *bytes, size_t size, off_t at) {
    ssize_t written = syscall(SYS_pwrite64, file, bytes, size, at);
    if (written >= 0 && file < MOST_FILES && has_dsync[file]) (void)sleep_as_sync();
    return written;
}

int open64(const char *name, int flags, ...) __attribute__((alias("open")));
ssize_t pwrite64(int file, const void *bytes, size_t size, off64_t at) __attribute__((alias("pwrite")));
