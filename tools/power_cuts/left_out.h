/* A sync that is left out of each round, so that tools/power-cuts can be seen to find that: WITHOUT_SYNC=N leaves out the Nth of two; of a round
 * of four (docs/FORMAT.md, "The other calls") the third and the fourth are those of its second commit. A program that has this is linked with
 * -Wl,--wrap=pwrite,--wrap=fdatasync, and has FIELDS. */
#ifndef LEFT_OUT_H
#define LEFT_OUT_H
#include <stdbool.h>
#include <stdlib.h>
#include <unistd.h>

static int without, body_sync;
static bool has_gate, has_records;

static void leave_out(void) {
    const char *number = getenv("WITHOUT_SYNC");
    without = number != NULL ? atoi(number) : 0;
}

ssize_t __real_pwrite(int file, const void *bytes, size_t size, off_t at);
int __real_fdatasync(int file);
ssize_t __wrap_pwrite(int file, const void *bytes, size_t size, off_t at);
int __wrap_fdatasync(int file);

ssize_t __wrap_pwrite(int file, const void *bytes, size_t size, off_t at) {
    has_gate |= size == 1 && (at == 64 || at == 1112);
    has_records |= at >= 2160 + 24 * FIELDS;
    return __real_pwrite(file, bytes, size, at);
}

/* The sync of the records with a control's body, or of the home cells alone with one; or that of its gate. */
int __wrap_fdatasync(int file) {
    int number = has_gate ? body_sync + 1 : has_records ? 1 : 3;
    if (!has_gate) body_sync = number;
    has_gate = has_records = false;
    return number == without ? 0 : __real_fdatasync(file);
}

#endif
