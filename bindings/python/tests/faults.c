/* Makes calls of a heap's file fail, as a system does: while there is a file at FAULTS.sync each fdatasync and fsync fails with EIO, and
 * while there is one at FAULTS.write each write at a place with ENOSPC. While there is one at FAULTS.hang no fdatasync returns; the first that
 * doesn't makes FAULTS.hung. FAULTS is a variable. For LD_PRELOAD, also by tests/test_examples.py. */
#define _GNU_SOURCE
#include <dlfcn.h>
#include <errno.h>
#include <fcntl.h>
#include <stdio.h>
#include <stdlib.h>
#include <sys/types.h>
#include <unistd.h>

static int fails(const char *what, int error) {
    char path[4096];
    int cause = errno;
    const char *folder = getenv("FAULTS");
    if (folder == NULL) return 0;
    (void)snprintf(path, sizeof path, "%s.%s", folder, what);
    int is_there = access(path, F_OK) == 0;
    errno = is_there && error != 0 ? error : cause;
    return is_there;
}

static void tell_hang(void) {
    char path[4096];
    const char *folder = getenv("FAULTS");
    if (folder == NULL) return;
    (void)snprintf(path, sizeof path, "%s.hung", folder);
    int file = open(path, O_WRONLY | O_CREAT | O_CLOEXEC, 0600);
    if (file >= 0) (void)close(file);
}

int fdatasync(int file) {
    int (*next)(int) = (int (*)(int))dlsym(RTLD_NEXT, "fdatasync");
    int cause = errno;
    if (fails("hang", 0)) tell_hang();
    errno = cause;
    while (fails("hang", 0)) usleep(1000);
    return fails("sync", EIO) ? -1 : next(file);
}

int fsync(int file) {
    int (*next)(int) = (int (*)(int))dlsym(RTLD_NEXT, "fsync");
    return fails("sync", EIO) ? -1 : next(file);
}

ssize_t pwrite(int file, const void *bytes, size_t size, off_t at) {
    ssize_t (*next)(int, const void *, size_t, off_t) = (ssize_t(*)(int, const void *, size_t, off_t))dlsym(RTLD_NEXT, "pwrite");
    return fails("write", ENOSPC) ? -1 : next(file, bytes, size, at);
}

ssize_t pwrite64(int file, const void *bytes, size_t size, off_t at) {
    return pwrite(file, bytes, size, at);
}
