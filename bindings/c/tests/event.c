/* Tests of threads with an event loop: zelamiku_thread_event and zelamiku_thread_ask, on a file whose writes and syncs may fail or hang.
 *
 *     event FOLDER      answers 0 where all is as it must be
 *
 * A machine that is slow, or stops for a while, is no mistake: times are waited for in vain, or by what hangs. */
#define _GNU_SOURCE
#include <errno.h>
#include <fcntl.h>
#include <poll.h>
#include <stdbool.h>
#include <sys/epoll.h>
#include <sys/resource.h>
#include <sys/wait.h>
#include <unistd.h>

static int writes_fail, syncs_fail, syncs_hang;
static int failures; /* while writes fail so many do, and the next one waits until there are more, or writes go on */

static ssize_t flaky_pwrite(int file, const void *bytes, size_t size, off_t at) {
    while (__atomic_load_n(&writes_fail, __ATOMIC_SEQ_CST)) {
        int left = __atomic_load_n(&failures, __ATOMIC_SEQ_CST);
        if (left > 0 && __atomic_compare_exchange_n(&failures, &left, left - 1, false, __ATOMIC_SEQ_CST, __ATOMIC_SEQ_CST)) return errno = ENOSPC, -1;
        usleep(100);
    }
    return pwrite(file, bytes, size, at);
}

static int flaky_fdatasync(int file) {
    while (__atomic_load_n(&syncs_hang, __ATOMIC_SEQ_CST)) usleep(100);
    if (__atomic_load_n(&syncs_fail, __ATOMIC_SEQ_CST)) return errno = EIO, -1;
    return fdatasync(file);
}

#define pwrite flaky_pwrite
#define fdatasync flaky_fdatasync
#include "../zelamiku_threads.c"
#include "must.h"

enum { LANES = 6, A_WHILE = 20, PATIENCE = 240000 }; /* milliseconds; what isn't there after PATIENCE hangs */

static const zelamiku_field FIELDS[] = {{0, 0, 0, 0}, {1, 1, 0, 0}, {2, 2, 0, 0}, {3, 3, 0, 0}};
static zelamiku_heap all;

static void begin_by(bool is_new, uint32_t linger) {
    zelamiku_plan plan = {.size = sizeof(zelamiku_plan), .fields = FIELDS, .count = 4, .objects = 4, .lanes = LANES, .ring = 4096, .linger = linger};
    if (is_new) MUST(unlink("event.heap") == 0 || errno == ENOENT);
    MUST(zelamiku_heap_open(&all, "event.heap", &plan, NULL) == ZELAMIKU_OK);
}

static void begin_heap(bool is_new) {
    begin_by(is_new, 2000);
}

static heap *its_heap(void) {
    return &heaps[all.number >> 8 & 255];
}

static zelamiku_thread begin_thread(void) {
    zelamiku_thread own;
    MUST(zelamiku_thread_begin(&own, all) == ZELAMIKU_OK);
    return own;
}

static zelamiku_thread begin_loop(int *event) {
    zelamiku_thread own = begin_thread();
    MUST(zelamiku_thread_event(own, event) == ZELAMIKU_OK && *event >= 0);
    return own;
}

static zelamiku_stats stats(void) {
    zelamiku_stats found = {.size = sizeof found};
    MUST(zelamiku_heap_stats(all, &found) == ZELAMIKU_OK);
    return found;
}

/* Whether no round is being made, and none comes unless a thread does something. */
static bool is_at_rest(void) {
    heap *of = its_heap();
    lock(&of->mutex);
    bool is = !of->is_led && !of->has_work && cause_of(of, false) == ZELAMIKU_ROUND_NONE && !of->is_troubled;
    unlock(&of->mutex);
    return is;
}

static uint64_t rounds_at_rest(void) {
    UNTIL(is_at_rest());
    return stats().rounds;
}

static bool is_readable(int event, int milliseconds) {
    struct pollfd one = {event, POLLIN, 0};
    return poll(&one, 1, milliseconds) == 1;
}

static bool is_closed(int event) {
    return fcntl(event, F_GETFD) == -1 && errno == EBADF;
}

static void add(zelamiku_thread own, uint32_t object) {
    uint64_t value = 0;
    MUST(zelamiku_thread_enter(own, object) == ZELAMIKU_OK && zelamiku_thread_load(own, object, &value) == ZELAMIKU_OK);
    MUST(zelamiku_thread_store(own, object, value + 1) == ZELAMIKU_OK && zelamiku_thread_exit(own, object) == ZELAMIKU_OK);
}

static uint64_t ask_well(zelamiku_thread own) {
    uint64_t durable = 0;
    MUST(zelamiku_thread_ask(own, &durable) == ZELAMIKU_OK);
    return durable;
}

/* Waits for the event, and asks for nothing more, until all that has ended is durable. */
static void await_event(zelamiku_thread own, int event) {
    while (ask_well(own) < progress(own).sections) MUST(is_readable(event, PATIENCE));
    MUST(!is_readable(event, 0));
}

static void close_heap_well(void) {
    MUST(zelamiku_heap_close(all) == ZELAMIKU_OK);
}

static void asks(void) {
    int one, two, same;
    begin_heap(true);
    zelamiku_thread a = begin_loop(&one), b = begin_loop(&two);
    MUST(zelamiku_thread_event(a, &same) == ZELAMIKU_OK && same == one && one != two);
    MUST(!is_readable(one, A_WHILE) && ask_well(a) == 0 && !is_readable(one, A_WHILE));
    /* Only who has asked is told, once. */
    add(a, 0);
    MUST(ask_well(a) == 0 || progress(a).durable == 1);
    await_event(a, one);
    MUST(progress(a).durable == 1 && !is_readable(one, A_WHILE) && !is_readable(two, 0));
    /* No news without an ask. */
    add(a, 0);
    MUST(!is_readable(one, 10 * A_WHILE));
    UNTIL(progress(a).durable == 2);
    MUST(!is_readable(one, A_WHILE) && ask_well(a) == 2 && !is_readable(one, A_WHILE));
    /* A thousand by one ask. */
    for (int i = 0; i < 1000; i++) add(a, 0);
    await_event(a, one);
    MUST(progress(a).durable == 1002 && stats().awaiting == 0);
    /* One that has only looked: no round would come by itself. */
    uint64_t value = 0;
    MUST(zelamiku_thread_enter(b, 0) == ZELAMIKU_OK && zelamiku_thread_load(b, 0, &value) == ZELAMIKU_OK && value == 1002);
    MUST(zelamiku_thread_exit(b, 0) == ZELAMIKU_OK);
    usleep(20000);
    await_event(b, two);
    close_heap_well();
    MUST(is_readable(one, PATIENCE) && is_readable(two, PATIENCE) && ask_well(a) == 1002 && !is_readable(one, 0));
    MUST(zelamiku_thread_end(a) == ZELAMIKU_CLOSED && zelamiku_thread_end(b) == ZELAMIKU_CLOSED && is_closed(one) && is_closed(two));
    MUST(zelamiku_thread_event(a, &same) == ZELAMIKU_NOTHING && same == -1);
}

/* An ask brings a round at once, also where none comes by itself. */
static void asks_without_linger(void) {
    int event;
    begin_by(true, UINT32_MAX);
    zelamiku_thread a = begin_loop(&event);
    add(a, 0);
    await_event(a, event);
    MUST(progress(a).durable == 1 && zelamiku_thread_end(a) == ZELAMIKU_OK);
    /* One with nothing of its own to ask for brings none. */
    zelamiku_thread b = begin_thread(), c = begin_thread();
    uint64_t rounds = stats().rounds;
    add(b, 0);
    MUST(ask_well(c) == 0);
    usleep(20000);
    MUST(stats().rounds == rounds);
    close_heap_well();
}

/* The last of as many lanes as there can be has an event too. */
static void most_lanes(void) {
    zelamiku_plan plan = {.size = sizeof(zelamiku_plan), .fields = FIELDS, .count = 4, .objects = 4, .lanes = ZELAMIKU_MOST_LANES};
    zelamiku_thread own[ZELAMIKU_MOST_LANES];
    int event;
    MUST(unlink("event.heap") == 0 && zelamiku_heap_open(&all, "event.heap", &plan, NULL) == ZELAMIKU_OK);
    for (int i = 0; i < ZELAMIKU_MOST_LANES; i++) own[i] = i < ZELAMIKU_MOST_LANES - 1 ? begin_thread() : begin_loop(&event);
    add(own[ZELAMIKU_MOST_LANES - 1], 0);
    await_event(own[ZELAMIKU_MOST_LANES - 1], event);
    for (int i = 0; i < ZELAMIKU_MOST_LANES; i++) MUST(zelamiku_thread_end(own[i]) == ZELAMIKU_OK);
    close_heap_well();
}

/* A section that depends on an open one is told once that has ended, and nobody asks again; meanwhile no round comes for it. */
static void depends(void) {
    int event;
    begin_heap(true);
    zelamiku_thread a = begin_thread(), b = begin_loop(&event);
    add(b, 2); /* durable before it asks: no news later */
    UNTIL(progress(b).durable == 1);
    MUST(zelamiku_thread_enter(a, 0) == ZELAMIKU_OK && zelamiku_thread_enter(a, 1) == ZELAMIKU_OK);
    MUST(zelamiku_thread_store(a, 1, 7) == ZELAMIKU_OK && zelamiku_thread_exit(a, 1) == ZELAMIKU_OK);
    add(b, 1);
    MUST(ask_well(b) == 1);
    uint64_t rounds = rounds_at_rest();
    MUST(!is_readable(event, 5 * A_WHILE) && progress(b).durable == 1 && stats().awaiting == 1 && stats().rounds == rounds);
    MUST(zelamiku_thread_exit(a, 0) == ZELAMIKU_OK && is_readable(event, PATIENCE) && ask_well(b) == 2 && stats().awaiting == 0);
    /* Who gives its lane back waits no more. */
    MUST(zelamiku_thread_enter(a, 0) == ZELAMIKU_OK && zelamiku_thread_enter(a, 1) == ZELAMIKU_OK);
    MUST(zelamiku_thread_store(a, 1, 8) == ZELAMIKU_OK && zelamiku_thread_exit(a, 1) == ZELAMIKU_OK);
    add(b, 1);
    MUST(ask_well(b) == 2 && stats().awaiting == 1 && zelamiku_thread_end(b) == ZELAMIKU_OK && stats().awaiting == 0 && is_closed(event));
    MUST(zelamiku_thread_exit(a, 0) == ZELAMIKU_OK && zelamiku_thread_end(a) == ZELAMIKU_OK);
    close_heap_well();
}

/* By edge there is no news but of a round that has made some of the thread's sections durable, though it waits for more. */
static void edges(void) {
    int event, edges = epoll_create1(EPOLL_CLOEXEC);
    struct epoll_event edge = {.events = EPOLLIN | EPOLLET};
    begin_heap(true);
    zelamiku_thread a = begin_thread(), b = begin_loop(&event), c = begin_thread();
    MUST(edges >= 0 && epoll_ctl(edges, EPOLL_CTL_ADD, event, &edge) == 0);
    MUST(zelamiku_thread_enter(a, 0) == ZELAMIKU_OK && zelamiku_thread_enter(a, 1) == ZELAMIKU_OK);
    MUST(zelamiku_thread_store(a, 1, 7) == ZELAMIKU_OK && zelamiku_thread_exit(a, 1) == ZELAMIKU_OK);
    __atomic_store_n(&syncs_hang, 1, __ATOMIC_SEQ_CST);
    add(b, 2);
    add(b, 1);
    MUST(ask_well(b) == 0);
    __atomic_store_n(&syncs_hang, 0, __ATOMIC_SEQ_CST);
    MUST(epoll_wait(edges, &edge, 1, PATIENCE) == 1);
    UNTIL(progress(b).durable == 1);
    (void)rounds_at_rest();
    add(c, 3);
    MUST(zelamiku_thread_await(c) == ZELAMIKU_OK && rounds_at_rest() > 1 && epoll_wait(edges, &edge, 1, A_WHILE) == 0);
    MUST(zelamiku_thread_exit(a, 0) == ZELAMIKU_OK && epoll_wait(edges, &edge, 1, PATIENCE) == 1 && close(edges) == 0);
    await_event(b, event);
    close_heap_well();
    MUST(zelamiku_thread_end(b) == ZELAMIKU_CLOSED && is_closed(event));
}

/* Sections of another monitor until there is no room: while syncs hang, or no round may give some. */
static void fill(zelamiku_thread own, uint32_t object) {
    zelamiku_status status;
    while ((status = zelamiku_thread_enter_until(own, object, 0)) == ZELAMIKU_OK)
        MUST(zelamiku_thread_store(own, object, 1) == ZELAMIKU_OK && zelamiku_thread_exit(own, object) == ZELAMIKU_OK);
    MUST(status == ZELAMIKU_BEHIND);
}

static void room(void) {
    int one, two;
    begin_heap(true);
    zelamiku_thread a = begin_loop(&one), b = begin_loop(&two);
    __atomic_store_n(&syncs_hang, 1, __ATOMIC_SEQ_CST);
    fill(a, 0);
    __atomic_store_n(&syncs_hang, 0, __ATOMIC_SEQ_CST);
    MUST(is_readable(one, PATIENCE));
    (void)rounds_at_rest();
    /* It may ask once before it tries again, and waits for the event after that. */
    (void)ask_well(a);
    MUST(is_readable(one, 0));
    (void)ask_well(a);
    MUST(!is_readable(one, 0) && zelamiku_thread_enter_until(a, 0, 0) == ZELAMIKU_OK && zelamiku_thread_exit(a, 0) == ZELAMIKU_OK);
    await_event(a, one);
    /* Who gives its lane back waits for no room any more, and the next thread with the lane has no news of it. */
    __atomic_store_n(&syncs_hang, 1, __ATOMIC_SEQ_CST);
    fill(a, 0);
    MUST(stats().awaiting == 1 && zelamiku_thread_end(a) == ZELAMIKU_OK && stats().awaiting == 0);
    a = begin_loop(&one);
    MUST(progress(a).lane == 0 && !is_readable(one, 0));
    __atomic_store_n(&syncs_hang, 0, __ATOMIC_SEQ_CST);
    (void)rounds_at_rest();
    MUST(!is_readable(one, 0));
    /* Once a section has ended since it was told of room, an ask makes the event unreadable. */
    __atomic_store_n(&syncs_hang, 1, __ATOMIC_SEQ_CST);
    fill(a, 0);
    __atomic_store_n(&syncs_hang, 0, __ATOMIC_SEQ_CST);
    while (zelamiku_thread_enter_until(a, 0, 0) == ZELAMIKU_BEHIND) MUST(is_readable(one, PATIENCE));
    MUST(zelamiku_thread_exit(a, 0) == ZELAMIKU_OK);
    await_event(a, one);
    /* Its room depends on an open section: it is told of a few rounds, and then of one that follows that section's end. */
    MUST(zelamiku_thread_enter(a, 0) == ZELAMIKU_OK && zelamiku_thread_enter(a, 1) == ZELAMIKU_OK);
    MUST(zelamiku_thread_store(a, 1, 7) == ZELAMIKU_OK && zelamiku_thread_exit(a, 1) == ZELAMIKU_OK);
    unsigned rung = 0;
    for (; rung < 10000; rung++) {
        fill(b, 1);
        UNTIL(is_readable(two, 0) || is_at_rest());
        if (!is_readable(two, 0)) break;
        (void)ask_well(b);
    }
    uint64_t rounds = rounds_at_rest();
    printf("without room: rung %u times, in %llu rounds\n", rung, (unsigned long long)rounds);
    MUST(rung < 10000 && !is_readable(two, 5 * A_WHILE) && stats().rounds == rounds);
    /* It is told of another's round, and has tried again in vain before it asks: no news is left. */
    zelamiku_thread c = begin_thread();
    add(c, 2);
    MUST(zelamiku_thread_await(c) == ZELAMIKU_OK && is_readable(two, PATIENCE) && zelamiku_thread_end(c) == ZELAMIKU_OK);
    (void)rounds_at_rest();
    MUST(zelamiku_thread_enter_until(b, 1, 0) == ZELAMIKU_BEHIND);
    (void)ask_well(b);
    MUST(!is_readable(two, 5 * A_WHILE));
    MUST(zelamiku_thread_exit(a, 0) == ZELAMIKU_OK);
    zelamiku_status status;
    do {
        MUST(is_readable(two, PATIENCE));
        (void)ask_well(b);
    } while ((status = zelamiku_thread_enter_until(b, 1, 0)) == ZELAMIKU_BEHIND);
    MUST(status == ZELAMIKU_OK && zelamiku_thread_exit(b, 1) == ZELAMIKU_OK);
    await_event(b, two);
    MUST(stats().awaiting == 0 && zelamiku_thread_end(a) == ZELAMIKU_OK && zelamiku_thread_end(b) == ZELAMIKU_OK);
    close_heap_well();
}

static void ends_and_begins(void) {
    int event, other;
    uint64_t durable = 1;
    begin_heap(true);
    zelamiku_thread a = begin_loop(&event);
    add(a, 0);
    await_event(a, event);
    MUST(zelamiku_thread_end(a) == ZELAMIKU_OK && is_closed(event));
    MUST(zelamiku_thread_ask(a, &durable) == ZELAMIKU_NOTHING && durable == 0);
    MUST(zelamiku_thread_event(a, &other) == ZELAMIKU_NOTHING && other == -1);
    MUST(zelamiku_thread_event(a, NULL) == ZELAMIKU_BAD_ARGUMENT && zelamiku_thread_ask(a, NULL) == ZELAMIKU_BAD_ARGUMENT);
    MUST(zelamiku_thread_ask((zelamiku_thread){0}, &durable) == ZELAMIKU_NOTHING);
    /* An event that is made after the ask tells of it too. */
    zelamiku_thread b = begin_thread();
    MUST(progress(b).lane == 0);
    __atomic_store_n(&syncs_hang, 1, __ATOMIC_SEQ_CST);
    add(b, 1);
    MUST(ask_well(b) == 0 && stats().awaiting == 1);
    __atomic_store_n(&syncs_hang, 0, __ATOMIC_SEQ_CST);
    UNTIL(stats().awaiting == 0);
    MUST(zelamiku_thread_event(b, &event) == ZELAMIKU_OK && is_readable(event, 0) && ask_well(b) == 1 && !is_readable(event, 0));
    /* No descriptor is left. */
    struct rlimit before, none;
    zelamiku_thread c = begin_thread();
    MUST(getrlimit(RLIMIT_NOFILE, &before) == 0);
    none = before;
    none.rlim_cur = 0;
    MUST(setrlimit(RLIMIT_NOFILE, &none) == 0);
    zelamiku_status status = zelamiku_thread_event(c, &other);
    MUST(setrlimit(RLIMIT_NOFILE, &before) == 0);
    MUST(status == ZELAMIKU_NO_MEMORY && other == -1 && last_failure().error == EMFILE);
    MUST(zelamiku_thread_event(c, &other) == ZELAMIKU_OK && zelamiku_thread_end(c) == ZELAMIKU_OK && zelamiku_thread_end(b) == ZELAMIKU_OK);
    close_heap_well();
}

static void forks(void) {
    int one, two, answer = -1;
    begin_heap(true);
    zelamiku_thread a = begin_loop(&one);
    close_heap_well();
    begin_heap(true);
    zelamiku_thread b = begin_loop(&two);
    add(b, 0);
    /* Another thread may be in a call when it forks: no call of the child waits for that one. */
    lock(&its_heap()->mutex);
    pid_t child = fork();
    if (child > 0) unlock(&its_heap()->mutex);
    if (child == 0) {
        uint64_t durable = 1;
        bool is_well = zelamiku_thread_ask(b, &durable) == ZELAMIKU_FORKED && durable == 0 && is_closed(one) && is_closed(two);
        _exit(is_well && zelamiku_thread_event(b, &one) == ZELAMIKU_FORKED && one == -1 && zelamiku_thread_end(b) == ZELAMIKU_FORKED ? 0 : 1);
    }
    MUST(waitpid(child, &answer, 0) == child && answer == 0);
    await_event(b, two);
    MUST(zelamiku_thread_end(a) == ZELAMIKU_CLOSED && is_closed(one) && !is_closed(two) && zelamiku_thread_end(b) == ZELAMIKU_OK);
    close_heap_well();
}

/* An event of the program's own gets the event's number, as after a close too many. The system has one inode for all events. */
static void give_away(int event) {
    int other = eventfd(5, EFD_CLOEXEC | EFD_NONBLOCK);
    MUST(other >= 0 && (other == event || (dup2(other, event) == event && close(other) == 0)));
}

/* Whether that one is as it was: neither written, read nor closed. */
static bool is_untouched(int event) {
    uint64_t count = 0;
    return read(event, &count, sizeof count) == sizeof count && count == 5 && write(event, &count, sizeof count) == sizeof count;
}

static void closed_by_the_program(void) {
    int event, other, two, answer = -1;
    begin_heap(true);
    zelamiku_thread a = begin_loop(&event), b = begin_loop(&two);
    give_away(event);
    add(a, 0);
    (void)ask_well(a);
    UNTIL(progress(a).durable == 1 && stats().awaiting == 0);
    MUST(ask_well(a) == 1 && is_untouched(event));
    pid_t child = fork();
    if (child == 0) _exit(is_untouched(event) && is_closed(two) ? 0 : 1);
    MUST(waitpid(child, &answer, 0) == child && answer == 0);
    /* There is another event for the thread, and once it has closed that, one more. */
    MUST(zelamiku_thread_event(a, &other) == ZELAMIKU_OK && other != event && its_heap()->events == 2);
    add(a, 0);
    await_event(a, other);
    MUST(close(other) == 0 && ask_well(a) == 2 && zelamiku_thread_event(a, &other) == ZELAMIKU_OK && its_heap()->events == 2);
    add(a, 0);
    await_event(a, other);
    MUST(is_untouched(event) && close(event) == 0);
    /* No other lane's event gets its number. */
    int third, fourth;
    MUST(close(other) == 0);
    zelamiku_thread c = begin_loop(&third), d = begin_loop(&fourth);
    MUST(third != other && fourth != other && its_heap()->events == 4);
    int fifth;
    MUST(close(fourth) == 0);
    zelamiku_thread e = begin_loop(&fifth);
    MUST(fifth != fourth && zelamiku_thread_end(e) == ZELAMIKU_OK && is_closed(fifth) && is_closed(fourth));
    give_away(other);
    MUST(zelamiku_thread_end(a) == ZELAMIKU_OK && is_untouched(other) && close(other) == 0 && its_heap()->events == 3);
    MUST(zelamiku_thread_end(c) == ZELAMIKU_OK && zelamiku_thread_end(d) == ZELAMIKU_OK && is_closed(third) && is_closed(fourth));
    /* So it is at the heap's end. */
    give_away(two);
    close_heap_well();
    MUST(is_untouched(two) && zelamiku_thread_event(b, &event) == ZELAMIKU_OK && event != two && is_readable(event, 0));
    MUST(zelamiku_thread_end(b) == ZELAMIKU_CLOSED && is_closed(event) && is_untouched(two) && close(two) == 0);
}

static void failing_writes(void) {
    int event, idle;
    uint64_t durable = 0;
    begin_heap(true);
    zelamiku_thread a = begin_loop(&event), b = begin_loop(&idle);
    /* One that has failed before it asks is none of its own. */
    __atomic_store_n(&failures, 1, __ATOMIC_SEQ_CST);
    __atomic_store_n(&writes_fail, 1, __ATOMIC_SEQ_CST);
    add(b, 1);
    UNTIL(stats().troubles == 1);
    __atomic_store_n(&writes_fail, 0, __ATOMIC_SEQ_CST);
    UNTIL(progress(b).durable == 1);
    add(a, 0);
    await_event(a, event);
    MUST(!is_readable(idle, 0));
    __atomic_store_n(&writes_fail, 1, __ATOMIC_SEQ_CST);
    add(a, 0);
    uint64_t troubles = stats().troubles;
    MUST(ask_well(a) == 1);
    for (unsigned told = 1; told <= 2; told++) {
        __atomic_store_n(&failures, 1, __ATOMIC_SEQ_CST);
        MUST(is_readable(event, PATIENCE) && stats().troubles == troubles + told);
        MUST(zelamiku_thread_ask(a, &durable) == ZELAMIKU_DEVICE && durable == 1 && last_failure().error == ENOSPC);
        MUST(!is_readable(event, 0) && ask_well(a) == 1);
    }
    MUST(!is_readable(idle, 0));
    __atomic_store_n(&writes_fail, 0, __ATOMIC_SEQ_CST);
    while (progress(a).durable < 2) {
        MUST(is_readable(event, PATIENCE));
        zelamiku_status status = zelamiku_thread_ask(a, &durable);
        MUST(status == ZELAMIKU_OK || status == ZELAMIKU_DEVICE);
    }
    await_event(a, event);
    /* It is told too where it has no room; the write that made none is made again each second, and not sooner. */
    __atomic_store_n(&writes_fail, 1, __ATOMIC_SEQ_CST);
    fill(a, 0);
    troubles = stats().troubles;
    __atomic_store_n(&failures, 1, __ATOMIC_SEQ_CST);
    UNTIL(stats().troubles == troubles + 1);
    MUST(is_readable(event, PATIENCE) && ask_well(a) < progress(a).sections);
    fill(a, 0);
    __atomic_store_n(&writes_fail, 0, __ATOMIC_SEQ_CST);
    while (zelamiku_thread_enter_until(a, 0, 0) == ZELAMIKU_BEHIND) MUST(is_readable(event, PATIENCE));
    MUST(zelamiku_thread_exit(a, 0) == ZELAMIKU_OK);
    await_event(a, event);
    MUST(zelamiku_thread_end(a) == ZELAMIKU_OK && zelamiku_thread_end(b) == ZELAMIKU_OK);
    close_heap_well();
}

static void failing_syncs(void) {
    int event;
    uint64_t durable = 9;
    begin_heap(true);
    zelamiku_thread a = begin_loop(&event);
    __atomic_store_n(&syncs_fail, 1, __ATOMIC_SEQ_CST);
    add(a, 0);
    while (zelamiku_thread_ask(a, &durable) == ZELAMIKU_OK) MUST(is_readable(event, PATIENCE));
    MUST(zelamiku_thread_ask(a, &durable) == ZELAMIKU_LOST && durable == 0 && last_failure().error == EIO && !is_readable(event, 0));
    __atomic_store_n(&syncs_fail, 0, __ATOMIC_SEQ_CST);
    MUST(zelamiku_heap_close(all) == ZELAMIKU_LOST && is_readable(event, 0) && zelamiku_thread_end(a) == ZELAMIKU_LOST && is_closed(event));
}

static void *stop_soon(void *data) {
    usleep(50000);
    MUST(zelamiku_heap_stop(all, ZELAMIKU_CLOSED) == ZELAMIKU_OK);
    return data;
}

/* Another thread stops the heap: each loop is told, also in a section, and once more when nothing will be acknowledged any more. */
static void stops(void) {
    int one, two, late;
    uint64_t durable = 0;
    pthread_t thread;
    begin_heap(true);
    zelamiku_thread a = begin_loop(&one), b = begin_loop(&two), c = begin_thread();
    add(a, 0);
    await_event(a, one);
    MUST(zelamiku_thread_enter(b, 1) == ZELAMIKU_OK && zelamiku_thread_store(b, 1, 5) == ZELAMIKU_OK && zelamiku_thread_enter(b, 2) == ZELAMIKU_OK);
    MUST(zelamiku_thread_exit(b, 1) == ZELAMIKU_OK);
    add(a, 1);
    MUST(ask_well(a) == 1 && pthread_create(&thread, NULL, stop_soon, NULL) == 0);
    while (zelamiku_thread_ask(a, &durable) == ZELAMIKU_OK) MUST(is_readable(one, PATIENCE));
    MUST(zelamiku_thread_ask(a, &durable) == ZELAMIKU_CLOSED && durable == 1 && is_readable(two, PATIENCE));
    MUST(zelamiku_thread_exit(b, 2) == ZELAMIKU_CLOSED && pthread_join(thread, NULL) == 0);
    /* An event that is made after the end is readable, also after an ask. */
    MUST(ask_well(c) == 0 && zelamiku_thread_event(c, &late) == ZELAMIKU_OK && is_readable(late, 0) && zelamiku_thread_end(c) == ZELAMIKU_CLOSED);
    /* A section of its own was cut off. */
    MUST(zelamiku_thread_ask(b, &durable) == ZELAMIKU_CLOSED && durable == 0 && zelamiku_thread_end(a) == ZELAMIKU_CLOSED);
    begin_heap(false);
    MUST(zelamiku_thread_end(b) == ZELAMIKU_CLOSED && is_closed(two));
    close_heap_well();
}

/* A round waits for as many sections of a loop as the last one has told; what it knows of threads that sleep is as without loops. */
static void gathers(void) {
    int event, second;
    begin_heap(true);
    zelamiku_thread a = begin_loop(&event), b = begin_thread(), c = begin_loop(&second);
    heap *of = its_heap();
    for (int i = 0; i < 50; i++) add(a, 0);
    MUST(sections_of_loops(of) <= 50);
    await_event(a, event);
    add(a, 0);
    await_event(a, event);
    MUST(rounds_at_rest() > 0 && of->expected_sections == 1);
    /* What has ended before there is an event doesn't count. */
    int third;
    zelamiku_thread d = begin_thread();
    for (int i = 0; i < 3; i++) add(d, 2);
    MUST(zelamiku_thread_event(d, &third) == ZELAMIKU_OK && seat_of(d)->begun == 3 && zelamiku_thread_end(d) == ZELAMIKU_OK);
    add(b, 1);
    MUST(zelamiku_thread_await(b) == ZELAMIKU_OK && zelamiku_thread_end(b) == ZELAMIKU_OK);
    close_heap_well(); /* now its figures are nobody's */
    seat *own = seat_of(a);
    MUST(own->begun == own->ended && own->ended == 51 && begin_for_loops(of) == 0 && sections_of_loops(of) == 0);
    own->ended += 7;
    seat_of(b)->ended += 5; /* it has no event */
    seat_of(c)->ended += 4;
    MUST(sections_of_loops(of) == 11 && begin_for_loops(of) == 2 && sections_of_loops(of) == 0);
    own->ended -= 7;
    seat_of(b)->ended -= 5;
    seat_of(c)->ended -= 4;
    MUST(of->expected <= 1 && zelamiku_thread_end(a) == ZELAMIKU_CLOSED && zelamiku_thread_end(c) == ZELAMIKU_CLOSED);
}

/* Every other loop waits by edge: each round's news is one, also where nobody has asked since the last. */
static void *loop(void *data) {
    int event, edges = epoll_create1(EPOLL_CLOEXEC);
    bool is_by_edge = (uintptr_t)data % 2 == 1;
    zelamiku_thread own = begin_loop(&event);
    struct epoll_event edge = {.events = EPOLLIN | EPOLLET};
    MUST(edges >= 0 && epoll_ctl(edges, EPOLL_CTL_ADD, event, &edge) == 0);
    for (uint64_t sent = 0, durable = 0; sent < 400;) {
        for (unsigned clients = 1 + (unsigned)(sent * 7 % 16); clients > 0; clients--, sent++) add(own, (uint32_t)(sent % 4));
        MUST(zelamiku_thread_ask(own, &durable) == ZELAMIKU_OK && durable <= progress(own).sections);
        if (durable == progress(own).sections) continue;
        MUST(is_by_edge ? epoll_wait(edges, &edge, 1, PATIENCE) == 1 : is_readable(event, PATIENCE));
    }
    await_event(own, event);
    MUST(close(edges) == 0);
    MUST(zelamiku_thread_end(own) == ZELAMIKU_OK);
    return data;
}

static void *sleeper(void *data) {
    zelamiku_thread own = begin_thread();
    for (unsigned i = 0; i < 100; i++) {
        add(own, i % 4);
        MUST(zelamiku_thread_await(own) == ZELAMIKU_OK);
    }
    MUST(zelamiku_thread_end(own) == ZELAMIKU_OK);
    return data;
}

static void loops_beside_sleepers(void) {
    pthread_t threads[LANES];
    begin_heap(true);
    for (unsigned i = 0; i < LANES; i++)
        MUST(pthread_create(&threads[i], NULL, i % 3 == 2 ? sleeper : loop, (void *)(uintptr_t)i) == 0);
    for (unsigned i = 0; i < LANES; i++) MUST(pthread_join(threads[i], NULL) == 0);
    MUST(stats().awaiting == 0 && its_heap()->loops == 0 && its_heap()->events == 0);
    close_heap_well();
}

/* A loop that goes on until the heap's end, which comes at any moment. What it was told to be durable is so. */
static uint64_t told;

static void *loop_until_the_end(void *data) {
    int event;
    uint64_t durable = 0;
    zelamiku_thread own = begin_loop(&event);
    for (;;) {
        uint64_t value = 0;
        zelamiku_status status = zelamiku_thread_enter(own, 0);
        if (status == ZELAMIKU_OK) status = zelamiku_thread_load(own, 0, &value);
        if (status == ZELAMIKU_OK) status = zelamiku_thread_store(own, 0, value + 1);
        if (status == ZELAMIKU_OK) status = zelamiku_thread_exit(own, 0);
        if (status != ZELAMIKU_OK || zelamiku_thread_ask(own, &durable) != ZELAMIKU_OK) break;
        if (progress(own).sections - durable > 8) MUST(is_readable(event, PATIENCE));
    }
    while (zelamiku_thread_ask(own, &durable) == ZELAMIKU_OK && durable < progress(own).sections) MUST(is_readable(event, PATIENCE));
    told = durable;
    MUST(zelamiku_thread_end(own) == ZELAMIKU_CLOSED && is_closed(event));
    return data;
}

static void ends_in_full_run(void) {
    for (unsigned i = 0; i < 20; i++) {
        pthread_t thread;
        begin_heap(true);
        MUST(pthread_create(&thread, NULL, loop_until_the_end, NULL) == 0);
        while (stats().sections < 3) usleep(100);
        usleep(i * 300);
        MUST(zelamiku_heap_stop(all, ZELAMIKU_CLOSED) == ZELAMIKU_OK && pthread_join(thread, NULL) == 0);
        begin_heap(false);
        zelamiku_thread own = begin_thread();
        uint64_t value = 0;
        MUST(zelamiku_thread_enter(own, 0) == ZELAMIKU_OK && zelamiku_thread_load(own, 0, &value) == ZELAMIKU_OK && value == told);
        MUST(zelamiku_thread_exit(own, 0) == ZELAMIKU_OK);
        close_heap_well();
    }
}

/* A thread that has never ended its use of a heap keeps its event until another heap has the place. Its handle is nobody's then. */
static void places(void) {
    static const zelamiku_plan SMALL = {.size = sizeof(zelamiku_plan), .fields = FIELDS, .count = 4, .objects = 4, .lanes = 1};
    int event;
    begin_heap(true);
    zelamiku_thread first = begin_thread(), second = begin_loop(&event);
    uint64_t place = all.number & 0xffff00;
    close_heap_well();
    MUST(unlink("event.heap") == 0);
    for (unsigned i = 0; i < 2 * ZELAMIKU_MOST_HEAPS; i++) {
        MUST(!is_closed(event) && zelamiku_heap_open(&all, "event.heap", &SMALL, NULL) == ZELAMIKU_OK);
        if ((all.number & 0xffff00) == place) break;
        close_heap_well();
    }
    MUST((all.number & 0xffff00) == place && is_closed(event));
    MUST(zelamiku_thread_end(first) == ZELAMIKU_NOTHING && zelamiku_thread_end(second) == ZELAMIKU_NOTHING);
    close_heap_well();
}

int main(int argc, char **argv) {
    MUST(argc == 2 && chdir(argv[1]) == 0);
    asks();
    asks_without_linger();
    most_lanes();
    depends();
    edges();
    room();
    ends_and_begins();
    forks();
    closed_by_the_program();
    failing_writes();
    failing_syncs();
    stops();
    gathers();
    loops_beside_sleepers();
    ends_in_full_run();
    places();
    printf("event loops: asks, room, ends, forks, events that the program has closed, failing writes and syncs, stops, loops beside sleepers, places\n");
    return 0;
}
