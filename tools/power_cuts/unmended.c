/* Runs a program whose opening doesn't write back what it has read, for controls of tools/power-cuts.
 *
 *     unmended PROGRAM WORD..
 *
 * The write-back is the program's first writes to a file, up to its next sync: they write the bytes that the file shows already. These writes are
 * left out, and so is each request that the system drop a file's pages (posix_fadvise). Later writes stay, also those of the same bytes: recovery
 * makes such writes too, and without them a heap is lost for another reason. Its status is the program's. */
#define _GNU_SOURCE
#include <errno.h>
#include <fcntl.h>
#include <stdbool.h>
#include <stdint.h>
#include <stdio.h>
#include <stdlib.h>
#include <string.h>
#include <sys/ptrace.h>
#include <sys/stat.h>
#include <sys/syscall.h>
#include <sys/uio.h>
#include <sys/user.h>
#include <sys/wait.h>
#include <unistd.h>

enum { MOST = 1 << 22, THREADS = 4096 };

static void must(bool is_so, const char *what) {
    if (is_so) return;
    fprintf(stderr, "unmended: %s: %s\n", what, strerror(errno));
    exit(125);
}

/* Whether the file shows these bytes of the program at this place. */
static bool has_bytes(pid_t of, const struct user_regs_struct *call, off_t at) {
    static char new[MOST], old[MOST];
    size_t count = call->rdx;
    char path[64];
    struct iovec to = {new, count}, from = {(void *)call->rsi, count}; /* NOLINT */
    if (count == 0 || count > MOST || process_vm_readv(of, &to, 1, &from, 1, 0) != (ssize_t)count) return false;
    (void)snprintf(path, sizeof path, "/proc/%d/fd/%d", of, (int)call->rdi);
    int file = open(path, O_RDONLY | O_CLOEXEC);
    bool is_same = file >= 0 && pread(file, old, count, at) == (ssize_t)count && memcmp(old, new, count) == 0;
    if (file >= 0) (void)close(file);
    return is_same;
}

/* The place of the file from which `write` goes on; -1: it has none. */
static off_t place_of(pid_t of, int file) {
    char path[64];
    long long at = -1;
    (void)snprintf(path, sizeof path, "/proc/%d/fdinfo/%d", of, file);
    FILE *from = fopen(path, "re");
    if (from == NULL) return -1;
    if (fscanf(from, "pos: %lld", &at) != 1) at = -1;
    (void)fclose(from);
    return at;
}

static bool has_left_out, is_over; /* over: the opening has written back, or has begun to write something else */

/* The place of the file or disk to which the call writes; -1: it writes to none. */
static off_t written_at(pid_t of, const struct user_regs_struct *call) {
    char path[64];
    struct stat info;
    (void)snprintf(path, sizeof path, "/proc/%d/fd/%d", of, (int)call->rdi);
    if ((call->orig_rax != SYS_pwrite64 && call->orig_rax != SYS_write) || call->rdi <= STDERR_FILENO || stat(path, &info) != 0) return -1;
    if (!S_ISREG(info.st_mode) && !S_ISBLK(info.st_mode)) return -1;
    return call->orig_rax == SYS_pwrite64 ? (off_t)call->r10 : place_of(of, (int)call->rdi);
}

/* Before a call: leaves it out where it is one of those, and then returns what the call returns instead. -1: the call stays. */
static long answer_instead(pid_t of, struct user_regs_struct *call) {
    long number = (long)call->orig_rax, answer = -1;
    off_t at = written_at(of, call);
    if (number == SYS_fadvise64) answer = 0;
    if (number == SYS_fsync || number == SYS_fdatasync) is_over |= has_left_out;
    if (at >= 0 && !is_over) {
        is_over = !has_bytes(of, call, at);
        has_left_out |= !is_over;
        if (!is_over) answer = (long)call->rdx;
    }
    /* A write that goes on from a place has to move it. */
    if (answer >= 0 && number == SYS_write) {
        call->orig_rax = SYS_lseek;
        call->rsi = call->rdx;
        call->rdx = SEEK_CUR;
        must(ptrace(PTRACE_SETREGS, of, NULL, call) == 0, "registers");
        return (long)call->rsi;
    }
    if (answer < 0) return -1;
    call->orig_rax = SYS_getpid;
    must(ptrace(PTRACE_SETREGS, of, NULL, call) == 0, "registers");
    return answer;
}

/* What a thread's call answers, from its begin to its end. */
static struct {
    pid_t of;
    bool is_within;
    long answer;
} threads[THREADS];

static int thread_of(pid_t of) {
    int i = 0;
    while (i < THREADS && threads[i].of != of && threads[i].of != 0) i++;
    must(i < THREADS, "threads");
    threads[i].of = of;
    return i;
}

static void see_call(pid_t of) {
    struct user_regs_struct call;
    int thread = thread_of(of);
    if (ptrace(PTRACE_GETREGS, of, NULL, &call) != 0) return;
    if (!threads[thread].is_within) {
        threads[thread].answer = answer_instead(of, &call);
    } else if (threads[thread].answer >= 0) {
        call.rax = (unsigned long)threads[thread].answer;
        must(ptrace(PTRACE_SETREGS, of, NULL, &call) == 0, "registers");
    }
    threads[thread].is_within = !threads[thread].is_within;
}

int main(int argc, char **argv) {
    if (argc < 2) return 125;
    pid_t program = fork(), of;
    must(program >= 0, "fork");
    if (program == 0) {
        must(ptrace(PTRACE_TRACEME, 0, NULL, NULL) == 0 && raise(SIGSTOP) == 0, "trace");
        (void)execvp(argv[1], argv + 1);
        must(false, argv[1]);
    }
    int status, options = PTRACE_O_TRACESYSGOOD | PTRACE_O_TRACECLONE | PTRACE_O_EXITKILL;
    must(waitpid(program, &status, 0) == program && ptrace(PTRACE_SETOPTIONS, program, NULL, options) == 0, "trace");
    (void)ptrace(PTRACE_SYSCALL, program, NULL, NULL);
    while ((of = waitpid(-1, &status, __WALL)) > 0) {
        if (of == program && WIFEXITED(status)) return WEXITSTATUS(status);
        if (of == program && WIFSIGNALED(status)) return 128 + WTERMSIG(status);
        if (!WIFSTOPPED(status)) continue;
        int by = WSTOPSIG(status);
        if (by == (SIGTRAP | 0x80)) see_call(of);
        bool is_own = by == (SIGTRAP | 0x80) || by == SIGTRAP || by == SIGSTOP;
        (void)ptrace(PTRACE_SYSCALL, of, NULL, (void *)(intptr_t)(is_own ? 0 : by));
    }
    return 125;
}
