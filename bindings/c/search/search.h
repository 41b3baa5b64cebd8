/* What the parts of the search share: types, and what is asked for before it stands. main.c has all parts in it, as one unit. */
#define _GNU_SOURCE
#include <errno.h>
#include <fcntl.h>
#include <limits.h>
#include <linux/futex.h>
#include <malloc.h>
#include <poll.h>
#include <pthread.h>
#include <signal.h>
#include <stdarg.h>
#include <stdbool.h>
#include <stddef.h>
#include <stdint.h>
#include <stdio.h>
#include <stdlib.h>
#include <string.h>
#include <sys/mman.h>
#include <sys/syscall.h>
#include <sys/time.h>
#include <sys/wait.h>
#include <time.h>
#include <ucontext.h>
#include <unistd.h>
#include "zelamiku_core.h"

/* A controlled scheduler: the threads of a program, and of the scheduler's own C below it, run one at a time, and who goes on is chosen at each
 * step that others may see. So a seed gives the same run again. See search.c. */

enum { MOST_TASKS = 16, MOST_TOLD = 65536 };
#define NEVER UINT64_MAX

/* How it is chosen who goes on. */
typedef enum {
    AT_RANDOM,   /* each step anew */
    STICKY,      /* mostly the one that runs */
    BY_PRIORITY, /* the one with the most, which changes `depth` - 1 times: PCT */
    AS_TOLD,     /* the one that runs, as long as it can, but for the choices that are told */
    TIMELESS     /* the same, and time stands still until nobody can go on, or it is chosen that it goes on */
} search_kind;

/* A choice against what AS_TOLD does by itself: at which place, where more than one could go on, and which task. TIME: the first that sleeps until
 * a time, which is over now. */
enum { TIME = MOST_TASKS };
typedef struct {
    uint32_t place, task;
} search_choice;

typedef struct {
    uint64_t seed;        /* of the choices */
    search_kind kind;
    uint32_t depth, about; /* BY_PRIORITY; over how many steps the changes come */
    const search_choice *told;
    size_t count;
} search_schedule;

/* Where it was chosen who goes on. */
typedef struct {
    uint32_t able; /* a bit for each task that could go on; TIME's, of a TIMELESS run: one sleeps until a time */
    uint8_t usual; /* whom AS_TOLD chooses by itself */
} search_place;

/* What has come by choices against AS_TOLD's own, by which the run can be made again; and at each place whom it might have chosen. */
typedef struct {
    size_t count, places;
    size_t first, last; /* places of the program's own part: threads have begun, and not all have come back */
    search_choice choices[MOST_TOLD];
    search_place at[MOST_TOLD];
} search_run;

typedef void *search_body(void *argument);

/* What the program says when nobody can go on, also not by time: whether it has let somebody go on (search_let). And what it says before time
 * goes on by so much, since nobody can go on before. */
static bool is_stuck(void);
static void time_goes_on(uint64_t nanoseconds);

__attribute__((noreturn)) static void fail(const char *why);
__attribute__((noreturn, format(printf, 1, 2))) void search_fail(const char *why, ...);

/* A device in memory, which fails and hangs as it is told, and knows what a crash leaves: by chances of crashes alone, so that programs and their
 * schedules are the same without them. */

typedef enum { NEVER_FAILS, WRITE_FAILS, SYNC_FAILS, CALL_HANGS } device_fault;

typedef struct {
    device_fault fault;
    uint64_t fault_at, fault_ends, calls; /* which calls, by how many were made before */
    uint8_t *now, *durable;
    uint8_t *left; /* by a crash */
    uint64_t size;
    bool keeps_sectors; /* whole, as a journal needs it */
    struct {
        uint64_t at, size;
        uint8_t bytes[ZELAMIKU_MOST_BYTES];
    } *pending; /* writes since the last sync */
    size_t count, room;
    uint32_t in_call;  /* threads that make one now */
    bool is_over;      /* the heap has ended: none comes any more */
    void (*fails)(void *of, device_fault fault); /* told before the call fails */
    void (*crashes)(void *of);                   /* looks at what a crash leaves now */
    void *of;
} device;

/* A small sequential model of a heap's monitors, fields and sections: each answer that a thread gets has to be one that the model could give, and
 * what a crash leaves what the model says. See judge.c. */

enum {
    OBJECTS = 3,
    MOST_LANES = 6,
    SLOTS = 3, /* of the pool, which object 2 has */
    VALUE_OF = 0, /* fields: one for each object, */
    FILLER_OF = OBJECTS, /* one more for each, */
    PASSING = 2 * OBJECTS, /* one of object 0, transient or not, */
    POOL = PASSING + 1, /* and the pool */
    FIELDS = POOL + 1 + SLOTS,
    FIRST_VALUE = 7
};

typedef enum { NO_CALL, ENTERS, EXITS, WAITS, AWAITS, AWAITS_ROUND, ASKS, LISTENS, COPIES } judged_call;

typedef struct {
    judged_call call;   /* that it makes now */
    uint32_t object;
    uint64_t deadline;  /* of it; 0: it tries */
    bool has_let_go;    /* another one has had the monitor since the call began */
    bool may_be_held;   /* by another, at some moment since it began */
    bool was_ended;     /* the heap had ended before it began, */
    bool must_end;      /* and so it has to say */
    bool slips_through; /* an enter or a wait was underway at the heap's end: its section goes on until its last exit */
    uint32_t locks[OBJECTS], put_down; /* `put_down`: the locks with which it waits */
    uint64_t ended;     /* sections of the lane */
    uint64_t stored;    /* the last of them that has stored to a persistent field */
    uint64_t durable;   /* told, */
    uint64_t known;     /* and before the ask that it is in */
    uint32_t records;   /* about how many it has sent since all were durable */
    bool has_asked;     /* its event will be readable: of sections that it has asked for; */
    uint32_t is_short;  /* or since it has found no room, for so many asks */
    bool has_stored, is_lasting; /* the section that is open has; to a persistent field, */
    bool is_past;       /* and has freed a monitor under which it had */
} judged_lane;

typedef struct {
    uint32_t lane, field; /* or of the pool: POOL + 1 + slot */
    uint64_t section, value, before;
    bool is_back; /* a revert has taken it back, or has made it */
} judged_store;

typedef struct {
    bool is_any_open;
    bool is_open[MOST_LANES]; /* and its thread is in no call */
    uint64_t ended[MOST_LANES];
} judged_sections;

typedef struct {
    uint32_t lanes;
    bool reverts, has_transient, is_journaled;
    bool is_narrow; /* no thread fills its section: what a round changes goes into one batch of the journal */
    zelamiku_heap heap;
    uint32_t owner[OBJECTS];
    uint64_t set[OBJECTS], notified[OBJECTS]; /* a bit for each lane */
    uint64_t cut[OBJECTS]; /* whose wait or exit the heap's end has cut off: nobody is told whether it had freed the monitor */
    uint32_t signals[OBJECTS]; /* the program's, guarded by the monitor */
    uint64_t values[FIELDS];
    judged_lane of[MOST_LANES];
    uint32_t ends;        /* a bit for each status that a thread may be told as the heap's end */
    uint32_t closers;     /* calls that end the heap by CLOSED */
    bool has_ended;       /* a call that ends it has come back: a thread must be told so */
    bool has_trouble;     /* writes fail */
    judged_store *stores;
    size_t count, room;
} judge;

/* Programs by chance: what each thread does, as a list, so that parts can be left out. See programs.c. */

enum { MOST_THREADS = 5, MOST_DEEDS = 512, HEAPS = 2, COPIES_OF = 2 };

typedef enum {
    NO_DEED, ENTER, TRY, UNTIL, EXIT, LOAD, STORE, FILL, WAIT, NOTIFY, NOTIFY_ALL, TAKE, GIVE, REVERT, AWAIT, AWAIT_UNTIL, AWAIT_SOME, AWAIT_ROUND, NAP, STATS,
    LOOK, WAITS_OF, RENEW, ASK, CLOSE, STOP, ABANDON, EVENT, ASK_ALL, LISTEN, COPY, OPEN_AGAIN, FORK
} deed_kind;

typedef struct {
    deed_kind kind;
    uint8_t thread, heap;
    bool is_left_out;
    uint32_t object; /* or which field, slot or thread */
    uint64_t number; /* nanoseconds, or how many */
} deed;

typedef struct {
    uint64_t seed;
    uint32_t threads, heaps, lanes, capacity, ring, linger, processors;
    bool reverts;           /* the plan */
    bool is_journaled;      /* its heaps have journals */
    bool is_small;          /* main begins the threads' lanes and ends them, so that they do no more than what is searched; */
    uint32_t first;         /* and does so many of the deeds before they begin */
    bool is_in_file;        /* the first heap, on no device of the program's, in the folder that it runs in */
    device_fault fault;
    uint64_t fault_at, fault_for;
    uint32_t count;
    deed deeds[MOST_DEEDS];
} program;

enum { SMALL_PROGRAMS = 12 }; /* the seeds below are theirs: in these nothing comes by chance */
