/* counters_server: durable counters for clients that speak Redis' protocol (RESP2), by one thread, one event loop and one lane of a heap.
 *
 *     counters_server HEAP KEYS PORT|PATH [CLIENTS]
 *
 * HEAP is the heap's file, which is made or recovered. KEYS is a file with a counter's name on each line. The server listens on a port of
 * 127.0.0.1 or on a Unix socket, and serves at most CLIENTS (1,000) at once. SIGTERM and SIGINT stop it.
 *
 * A command is one section. Its answer is sent once no crash can undo the section:
 *   - A client's turn reads once and runs the commands that have come. Their answers wait for the last of their sections (`waits`).
 *   - After all turns the loop asks once for all sections (zelamiku_thread_ask), and sleeps in epoll for clients and the lane's event.
 *   - Answers of durable sections are sent. A client's next turn comes after that, so answers keep their order, and a client that doesn't
 *     read is held back. */
#define _GNU_SOURCE
#include <arpa/inet.h>
#include <assert.h>
#include <errno.h>
#include <fcntl.h>
#include <inttypes.h>
#include <netinet/tcp.h>
#include <signal.h>
#include <stdarg.h>
#include <stdio.h>
#include <stdlib.h>
#include <string.h>
#include <strings.h>
#include <sys/epoll.h>
#include <sys/queue.h>
#include <sys/signalfd.h>
#include <sys/socket.h>
#include <sys/stat.h>
#include <sys/un.h>
#include <time.h>
#include <unistd.h>
#include "zelamiku.h"

enum {
    MONITORS = ZELAMIKU_MOST_HELD,        /* a section may hold all of them */
    MOST_KEYS = ZELAMIKU_MOST_FIELDS - 1, /* the heap has one field more, for the fingerprint */
    MOST_NAME = 128,                      /* bytes of a name */
    MOST_WORDS = 512,                     /* of a command */
    MOST_BYTES = 1 << 14,                 /* of a command, and of answers that wait */
    MOST_ANSWER = 512,                    /* bytes of one answer */
    PATIENCE = 30                         /* seconds, until a client that doesn't read is cut off */
};

typedef struct {
    const char *at;
    size_t size;
} word;
typedef struct client client;
typedef TAILQ_HEAD(clients, client) clients;
struct client {
    TAILQ_ENTRY(client) link;
    clients *list; /* that it is in */
    int file;
    bool may_read, is_hung;          /* by its events: it has sent something, or its end */
    bool is_ended, is_closing;       /* it sends nothing more; none of its commands is run any more */
    bool has_more;                   /* `in` may begin with a whole command */
    size_t in_used, out_used, sent;  /* `sent` bytes of `out` */
    uint64_t waits;                  /* the section that has to be durable before `out` is sent */
    time_t since;                    /* when something was sent last, or could be for the first time */
    char in[MOST_BYTES], out[MOST_BYTES];
};

static word names[MOST_KEYS];      /* sorted: key k is field k, guarded by monitor k % MONITORS */
static uint64_t stored[MOST_KEYS]; /* the section that stored it last */
static uint32_t key_count, client_count, most_clients = 1000;
static zelamiku_heap heap;
static zelamiku_thread own;
static uint64_t durable; /* how many sections of the lane are, by the last ask */
static bool is_behind;   /* the lane has no room for a section, until its event */
static bool is_stopping;
static int poll_file, listener, event, signals; /* epoll knows the last three by their addresses */
static clients idle = TAILQ_HEAD_INITIALIZER(idle), work = TAILQ_HEAD_INITIALIZER(work), waiting = TAILQ_HEAD_INITIALIZER(waiting);
static word words[MOST_WORDS]; /* of the command that is run */
static size_t word_count;

__attribute__((noreturn, format(printf, 1, 2))) static void die(const char *format, ...) {
    va_list more;
    va_start(more, format);
    fprintf(stderr, "counters_server: ");
    vfprintf(stderr, format, more);
    fprintf(stderr, "\n");
    va_end(more);
    exit(2);
}

/* Also after a failed sync: nothing is confirmed any more, and the end of the process cuts all clients off. */
static void must(zelamiku_status status) {
    if (status != ZELAMIKU_OK) die("%s", zelamiku_heap_failure(NULL));
}

/* How many sections have ended. */
static uint64_t ended(void) {
    zelamiku_progress progress = {.size = sizeof progress};
    must(zelamiku_thread_progress(own, &progress));
    return progress.sections;
}

static time_t seconds_now(void) {
    struct timespec at;
    clock_gettime(CLOCK_MONOTONIC, &at);
    return at.tv_sec;
}

/* ---- keys ---- */

static int compare(const void *one, const void *other) {
    const word *a = one, *b = other;
    int order = memcmp(a->at, b->at, a->size < b->size ? a->size : b->size);
    return order != 0 ? order : (a->size > b->size) - (a->size < b->size);
}

static bool is_key(word name, uint32_t *key) {
    const word *found = bsearch(&name, names, key_count, sizeof *names, compare);
    if (found != NULL) *key = (uint32_t)(found - names);
    return found != NULL;
}

/* The 64 bits of FNV-1a over the names, with a byte ff between two. */
static uint64_t fingerprint(void) {
    uint64_t sum = 0xcbf29ce484222325;
    for (uint32_t k = 0; k < key_count; k++) {
        if (k > 0) sum = (sum ^ 0xff) * 0x100000001b3;
        for (size_t i = 0; i < names[k].size; i++) sum = (sum ^ (unsigned char)names[k].at[i]) * 0x100000001b3;
    }
    return sum != 0 ? sum : 1;
}

static void read_keys(const char *path) {
    FILE *file = fopen(path, "r");
    char *line = NULL;
    size_t room = 0;
    if (file == NULL) die("%s: %s", path, strerror(errno));
    for (ssize_t size; (size = getline(&line, &room, file)) > 0; line = NULL, room = 0) {
        if (line[size - 1] == '\n') line[--size] = 0;
        if (key_count == MOST_KEYS) die("%s: more than %d keys", path, MOST_KEYS);
        if (size == 0 || size > MOST_NAME) die("%s: line %" PRIu32 ": a name has 1 to %d bytes", path, key_count + 1, MOST_NAME);
        names[key_count++] = (word){line, (size_t)size};
    }
    if (ferror(file) || key_count == 0) die("%s: %s", path, ferror(file) ? strerror(errno) : "no key");
    free(line);
    fclose(file);
    qsort(names, key_count, sizeof *names, compare);
    for (uint32_t k = 1; k < key_count; k++)
        if (compare(&names[k - 1], &names[k]) == 0) die("%s: a name stands there twice: %s", path, names[k].at);
}

/* ---- the protocol ---- */

__attribute__((format(printf, 2, 3))) static void say(client *c, const char *format, ...) {
    va_list more;
    va_start(more, format);
    int size = vsnprintf(c->out + c->out_used, MOST_ANSWER, format, more);
    va_end(more);
    assert(size >= 0 && size < MOST_ANSWER && c->out_used + MOST_ANSWER <= MOST_BYTES);
    c->out_used += (size_t)size;
}

static bool refuse(client *c, const char *why) {
    say(c, "-ERR %s\r\n", why);
    return false;
}

/* A number as Redis takes it: no sign but -, no zero before it, nothing beside it. */
static bool number_of(word of, int64_t *value) {
    char text[24], again[24], *end;
    if (of.size == 0 || of.size >= sizeof text) return false;
    memcpy(text, of.at, of.size);
    text[of.size] = 0;
    errno = 0;
    *value = strtoll(text, &end, 10);
    snprintf(again, sizeof again, "%" PRId64, *value);
    return errno == 0 && end == text + of.size && strcmp(text, again) == 0;
}

/* Reads the line at `*done`: this sign, and a number up to `most`. 0: the line isn't whole; -1: it is something else. */
static int read_length(const client *c, size_t *done, char sign, int64_t most, size_t *length) {
    const char *from = c->in + *done, *end = memchr(from, '\n', c->in_used - *done);
    int64_t number;
    if (end == NULL) return 0;
    if (from[0] != sign || end[-1] != '\r' || end - from < 2) return -1;
    if (!number_of((word){from + 1, (size_t)(end - from) - 2}, &number) || number < 0 || number > most) return -1;
    *length = (size_t)number;
    *done = (size_t)(end - c->in) + 1;
    return 1;
}

/* Splits the first command into `words`, and returns its bytes. 0: it isn't whole; -1: it is no command, or is too long. */
static ssize_t split(const client *c) {
    size_t done = 0, count, length;
    word_count = 0;
    int found = read_length(c, &done, '*', MOST_WORDS, &count);
    while (found > 0 && word_count < count) {
        found = read_length(c, &done, '$', MOST_BYTES, &length);
        if (found > 0 && c->in_used - done < length + 2) found = 0;
        if (found > 0) words[word_count++] = (word){c->in + done, length};
        if (found > 0) done += length + 2;
    }
    if (found == 0 && c->in_used == MOST_BYTES) return -1;
    return found > 0 && count > 0 ? (ssize_t)done : found > 0 ? -1 : found;
}

/* ---- commands: each runs in a section that holds the monitors of its keys ---- */

static int64_t load(client *c, uint32_t key) {
    uint64_t bits;
    must(zelamiku_thread_load(own, key, &bits));
    if (c->waits < stored[key]) c->waits = stored[key]; /* what is answered has to be durable too */
    return (int64_t)bits;
}

static void store(client *c, uint32_t key, int64_t value) {
    must(zelamiku_thread_store(own, key, (uint64_t)value));
    c->waits = stored[key] = ended() + 1; /* the one that is open */
    assert(c->waits > durable);
}

static void run_get(client *c, const uint32_t *keys) {
    char text[24];
    int size = snprintf(text, sizeof text, "%" PRId64, load(c, keys[0]));
    say(c, "$%d\r\n%s\r\n", size, text);
}

static void add(client *c, uint32_t key, int64_t by) {
    int64_t value = load(c, key);
    if (__builtin_add_overflow(value, by, &value)) {
        (void)refuse(c, "increment or decrement would overflow");
    } else {
        store(c, key, value);
        say(c, ":%" PRId64 "\r\n", value);
    }
}

static void run_incr(client *c, const uint32_t *keys) { add(c, keys[0], 1); }

static void run_incrby(client *c, const uint32_t *keys) {
    int64_t by;
    if (number_of(words[2], &by)) add(c, keys[0], by);
    else (void)refuse(c, "value is not an integer or out of range");
}

/* SET and MSET: all or none. */
static void run_set(client *c, const uint32_t *keys) {
    int64_t value;
    for (size_t i = 2; i < word_count; i += 2)
        if (!number_of(words[i], &value)) return (void)refuse(c, "value is not an integer or out of range");
    for (size_t i = 2; i < word_count; i += 2) {
        (void)number_of(words[i], &value);
        store(c, keys[i / 2 - 1], value);
    }
    say(c, "+OK\r\n");
}

static void run_ping(client *c, const uint32_t *keys) {
    (void)keys;
    say(c, "+PONG\r\n");
}

typedef struct {
    const char *name;
    size_t least, most; /* words, with its name */
    size_t step;        /* from key to key among the words, which begin with the second; 0: it has none */
    void (*run)(client *c, const uint32_t *keys);
} command;

static const command COMMANDS[] = {{"ping", 1, 1, 0, run_ping},   {"get", 2, 2, 1, run_get}, {"incr", 2, 2, 1, run_incr},
                                   {"incrby", 3, 3, 2, run_incrby}, {"set", 3, 3, 2, run_set}, {"mset", 3, MOST_WORDS, 2, run_set}};

static const command *find_command(void) {
    for (size_t i = 0; i < sizeof COMMANDS / sizeof *COMMANDS; i++)
        if (words[0].size == strlen(COMMANDS[i].name) && strncasecmp(words[0].at, COMMANDS[i].name, words[0].size) == 0)
            return &COMMANDS[i];
    return NULL;
}

/* Finds the command and the keys of `words`, and the monitors of these. False: it can't be run, which is said. */
static bool check(client *c, const command *of, uint32_t *keys, uint32_t *monitors) {
    if (of == NULL) return refuse(c, "unknown command: this server has PING, GET, SET, INCR, INCRBY and MSET");
    if (word_count < of->least || word_count > of->most || (of->step == 2 && word_count % 2 == 0))
        return refuse(c, "wrong number of arguments");
    for (size_t i = 1; of->step > 0 && i < word_count; i += of->step) {
        uint32_t *key = &keys[(i - 1) / of->step];
        if (!is_key(words[i], key)) return refuse(c, "no such key: this server's keys are declared");
        *monitors |= (uint32_t)1 << *key % MONITORS;
    }
    return true;
}

/* Begins a section with these monitors, in the order of their numbers. False: the lane has no room, which its event will tell. */
static bool enter(uint32_t monitors) {
    for (uint32_t left = monitors; left != 0; left &= left - 1) {
        uint32_t object = (uint32_t)__builtin_ctz(left);
        /* The first one takes room for a whole section. */
        zelamiku_status status = left == monitors ? zelamiku_thread_enter_until(own, object, 0) : zelamiku_thread_enter(own, object);
        if (status == ZELAMIKU_BEHIND) return is_behind = true, false;
        must(status);
    }
    return true;
}

/* Runs the command of `words`. False: the lane has no room for its section, and nothing was done. */
static bool run(client *c) {
    uint32_t keys[MOST_WORDS], monitors = 0;
    const command *of = find_command();
    if (!check(c, of, keys, &monitors)) return true;
    if (!enter(monitors)) return false;
    of->run(c, keys);
    for (uint32_t left = monitors; left != 0; left &= left - 1) must(zelamiku_thread_exit(own, (uint32_t)__builtin_ctz(left)));
    return true;
}

/* ---- clients ---- */

static void place(client *c, clients *list) {
    if (c->list != NULL) TAILQ_REMOVE(c->list, c, link);
    c->list = list;
    if (list != NULL) TAILQ_INSERT_TAIL(list, c, link);
}

static void drop(client *c) {
    place(c, NULL);
    close(c->file);
    free(c);
    client_count--;
}

/* Reads once. False: the connection is gone. If less came than was asked for, that was all, and epoll reports more; but not an end that it
 * has reported already. */
static bool read_some(client *c) {
    size_t room = MOST_BYTES - c->in_used;
    if (!c->may_read || room == 0) return true;
    ssize_t size = recv(c->file, c->in + c->in_used, room, MSG_DONTWAIT);
    if (size < 0 && errno != EAGAIN && errno != EINTR) return false;
    if (size == 0) c->is_ended = true;
    if (size == 0 || (size < 0 && errno == EAGAIN) || (size > 0 && (size_t)size < room && !c->is_hung)) c->may_read = false;
    c->in_used += size > 0 ? (size_t)size : 0;
    c->has_more = true;
    return true;
}

/* Runs the commands that are whole, while there is room for their answers. */
static void run_commands(client *c) {
    while (c->has_more && !c->is_closing && c->out_used + MOST_ANSWER <= MOST_BYTES) {
        ssize_t size = split(c);
        if (size < 0) c->is_closing = !refuse(c, "Protocol error, or a command that is too long here");
        if (size == 0) c->has_more = false;
        if (size <= 0 || !run(c)) break;
        c->in_used -= (size_t)size;
        memmove(c->in, c->in + size, c->in_used);
    }
}

/* Sends the answers, which may leave. The client may be gone then. */
static void flush(client *c) {
    assert(c->out_used == 0 || c->waits <= durable);
    while (c->sent < c->out_used) {
        ssize_t size = send(c->file, c->out + c->sent, c->out_used - c->sent, MSG_NOSIGNAL | MSG_DONTWAIT);
        if (size < 0 && errno == EINTR) continue;
        if (size < 0 && errno == EAGAIN) return place(c, &idle); /* until it reads, or has exhausted our patience */
        if (size < 0) return drop(c);
        c->sent += (size_t)size;
        c->since = seconds_now();
    }
    c->out_used = c->sent = 0;
    if (c->is_closing || (c->is_ended && !c->has_more)) return drop(c);
    place(c, c->has_more || c->may_read ? &work : &idle);
}

/* A client's turn. */
static void serve(client *c) {
    assert(c->list == &work && c->sent <= c->out_used);
    if (c->out_used == 0) {
        if (!c->has_more && !read_some(c)) return drop(c);
        run_commands(c);
        c->since = seconds_now();
        if (c->out_used == 0 && is_behind) return; /* it is the first again, once there is room */
        if (c->out_used > 0 && c->waits > durable) return place(c, &waiting);
    }
    flush(c);
}

static void accept_client(void) {
    int file = accept4(listener, NULL, NULL, SOCK_NONBLOCK | SOCK_CLOEXEC), one = 1;
    if (file < 0) return;
    (void)setsockopt(file, IPPROTO_TCP, TCP_NODELAY, &one, sizeof one);
    client *c = client_count < most_clients ? calloc(1, sizeof *c) : NULL;
    struct epoll_event e = {EPOLLIN | EPOLLOUT | EPOLLRDHUP | EPOLLET, {.ptr = c}};
    if (c == NULL || epoll_ctl(poll_file, EPOLL_CTL_ADD, file, &e) != 0) {
        static const char TEXT[] = "-ERR max number of clients reached\r\n";
        (void)send(file, TEXT, sizeof TEXT - 1, MSG_NOSIGNAL | MSG_DONTWAIT);
        close(file);
        free(c);
        return;
    }
    c->file = file;
    client_count++;
    place(c, &idle);
}

static void note(client *c, uint32_t events) {
    if ((events & ~(uint32_t)EPOLLOUT) != 0) c->may_read = true;
    if ((events & (EPOLLRDHUP | EPOLLHUP | EPOLLERR)) != 0) c->is_hung = true;
    if (c->list == &idle) place(c, &work);
}

/* ---- the loop ---- */

/* Sends every answer that may leave. */
static void release(void) {
    for (client *c = TAILQ_FIRST(&waiting), *next; c != NULL; c = next) {
        next = TAILQ_NEXT(c, link);
        c->since = seconds_now();
        if (c->waits <= durable) flush(c);
    }
}

/* Cuts off clients that don't read. */
static void look_round(void) {
    static time_t last;
    if (seconds_now() == last) return;
    last = seconds_now();
    for (client *c = TAILQ_FIRST(&idle), *next; c != NULL; c = next) {
        next = TAILQ_NEXT(c, link);
        if (c->out_used > 0 && last - c->since > PATIENCE) drop(c);
    }
}

/* Learns how many sections are durable, and asks for the others. */
static void ask(void) {
    zelamiku_status status = zelamiku_thread_ask(own, &durable);
    if (status == ZELAMIKU_DEVICE) fprintf(stderr, "counters_server: %s\n", zelamiku_heap_failure(NULL)); /* the write is made again */
    else must(status);
}

static void turn(void) {
    struct epoll_event events[256];
    int count = epoll_wait(poll_file, events, 256, TAILQ_EMPTY(&work) || is_behind ? 1000 : 0);
    if (count < 0 && errno != EINTR) die("epoll_wait: %s", strerror(errno));
    bool is_rung = false;
    for (int i = 0; i < count; i++) {
        void *of = events[i].data.ptr;
        if (of == &event) is_rung = true;
        else if (of == &listener) accept_client();
        else if (of == &signals) is_stopping = true;
        else note(of, events[i].events);
    }
    /* An ask makes the event unreadable, so it comes before the next try for room. */
    if (is_rung) ask();
    if (is_rung) is_behind = false;
    client *last = TAILQ_LAST(&work, clients);
    for (bool is_last = last == NULL; !is_last && !is_behind;) {
        client *c = TAILQ_FIRST(&work);
        is_last = c == last;
        serve(c);
    }
    if (!is_behind && !TAILQ_EMPTY(&waiting)) ask();
    release();
    look_round();
}

/* ---- from start to stop ---- */

static void watch(int *file) {
    struct epoll_event e = {EPOLLIN, {.ptr = file}};
    if (epoll_ctl(poll_file, EPOLL_CTL_ADD, *file, &e) != 0) die("epoll_ctl: %s", strerror(errno));
}

/* A socket that a killed server has left is removed. Nothing else is. */
static void clear_path(const struct sockaddr_un *at) {
    struct stat found;
    int trial = socket(AF_UNIX, SOCK_STREAM | SOCK_CLOEXEC, 0);
    if (trial < 0) return;
    if (stat(at->sun_path, &found) == 0 && S_ISSOCK(found.st_mode))
        if (connect(trial, (const void *)at, sizeof *at) != 0 && errno == ECONNREFUSED) (void)unlink(at->sun_path);
    close(trial);
}

static void listen_to(int family, const void *address, socklen_t size, const char *name) {
    int one = 1;
    listener = socket(family, SOCK_STREAM | SOCK_NONBLOCK | SOCK_CLOEXEC, 0);
    if (listener >= 0 && family == AF_INET) (void)setsockopt(listener, SOL_SOCKET, SO_REUSEADDR, &one, sizeof one);
    if (listener < 0 || bind(listener, address, size) != 0 || listen(listener, 511) != 0) die("%s: %s", name, strerror(errno));
}

static void open_place(const char *name) {
    int64_t port;
    if (number_of((word){name, strlen(name)}, &port)) {
        if (port < 1 || port > 65535) die("%s: no port", name);
        struct sockaddr_in at = {.sin_family = AF_INET, .sin_port = htons((uint16_t)port), .sin_addr.s_addr = htonl(INADDR_LOOPBACK)};
        return listen_to(AF_INET, &at, sizeof at, name);
    }
    struct sockaddr_un at = {.sun_family = AF_UNIX};
    if (strlen(name) >= sizeof at.sun_path) die("%s: the path is too long for a socket", name);
    strcpy(at.sun_path, name);
    clear_path(&at);
    listen_to(AF_UNIX, &at, sizeof at, name);
}

static void open_heap(const char *path) {
    static zelamiku_field fields[MOST_KEYS];
    for (uint32_t k = 0; k < key_count; k++) fields[k] = (zelamiku_field){.owner = k % MONITORS, .guard = k % MONITORS};
    zelamiku_plan plan = {.size = sizeof(zelamiku_plan), .fields = fields, .count = key_count, .objects = MONITORS, .lanes = 1, .fingerprint = fingerprint()};
    plan.ring = ZELAMIKU_MOST_RING; /* of many clients a round takes much */
    zelamiku_report report = {.size = sizeof report};
    must(zelamiku_heap_open(&heap, path, &plan, &report));
    must(zelamiku_thread_begin(&own, heap));
    must(zelamiku_thread_event(own, &event));
    printf("%s: %s, %" PRIu32 " keys\n", path, report.is_made ? "made" : "opened", key_count);
}

/* SIGTERM and SIGINT become readable in the loop. They are blocked before the library's thread is there, which would get them. */
static void take_signals(void) {
    sigset_t stops;
    sigemptyset(&stops);
    sigaddset(&stops, SIGTERM);
    sigaddset(&stops, SIGINT);
    (void)sigprocmask(SIG_BLOCK, &stops, NULL);
    signals = signalfd(-1, &stops, SFD_CLOEXEC | SFD_NONBLOCK);
    if (signals < 0) die("signalfd: %s", strerror(errno));
}

/* What has ended becomes durable, and its answers leave. */
static void stop(void) {
    close(listener);
    must(zelamiku_thread_await(own));
    durable = ended();
    release();
    close(poll_file); /* it has the lane's event, which ends with the lane */
    must(zelamiku_thread_end(own));
    must(zelamiku_heap_close(heap));
}

int main(int argc, char **argv) {
    int64_t most = most_clients;
    if (argc < 4 || argc > 5 || (argc == 5 && (!number_of((word){argv[4], strlen(argv[4])}, &most) || most < 1 || most > 100000)))
        die("give HEAP KEYS PORT|PATH [CLIENTS]");
    most_clients = (uint32_t)most;
    take_signals();
    read_keys(argv[2]);
    open_heap(argv[1]);
    open_place(argv[3]);
    poll_file = epoll_create1(EPOLL_CLOEXEC);
    if (poll_file < 0) die("epoll: %s", strerror(errno));
    watch(&listener);
    watch(&event);
    watch(&signals);
    printf("at %s, for %" PRIu32 " clients\n", argv[3], most_clients);
    (void)fflush(stdout);
    while (!is_stopping) turn();
    stop();
    printf("stopped\n");
    return 0;
}
