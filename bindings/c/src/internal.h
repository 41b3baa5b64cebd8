/* What the parts of the scheduler share: a lane's seat, a heap, their places, and the constants. */
#define _GNU_SOURCE
#include "zelamiku_core.h"
#include <assert.h>
#include <dirent.h>
#include <errno.h>
#include <fcntl.h>
#include <libgen.h>
#include <limits.h>
#include <linux/futex.h>
#include <pthread.h>
#include <sched.h>
#include <signal.h>
#include <stdarg.h>
#include <stdatomic.h>
#include <stddef.h>
#include <stdio.h>
#include <stdlib.h>
#include <string.h>
#include <sys/eventfd.h>
#include <sys/file.h>
#include <sys/prctl.h>
#include <sys/stat.h>
#include <sys/syscall.h>
#include <sys/sysmacros.h>
#include <time.h>
#include <unistd.h>
#ifdef HELGRIND /* which knows nothing of atomics */
#include <valgrind/helgrind.h>
#define ARE_ATOMIC(first, size) VALGRIND_HG_DISABLE_CHECKING(&(first), (size))
#else
#define ARE_ATOMIC(first, size) ((void)(first), (void)(size))
#endif
#define SELDOM(is_so) __builtin_expect((is_so), 0)
/* A system call that returns -1 when it fails, made again while it is interrupted. */
#define AGAIN(call) \
    ({ \
        __typeof__(call) answer_; \
        do answer_ = (call); \
        while (answer_ == -1 && errno == EINTR); \
        answer_; \
    })
#define COLD __attribute__((noinline, cold)) static

/* tools/search makes it small: its programs have few sections, and need groups too. */
#ifndef ZELAMIKU_GROUP
#define ZELAMIKU_GROUP 256
#endif
/* Pages of a half of a journal that is made; tests make it small. */
#ifndef ZELAMIKU_HALF
#define ZELAMIKU_HALF 133
#endif
/* Where the system shows block devices by their numbers; tests show their own. */
#ifndef ZELAMIKU_BLOCKS
#define ZELAMIKU_BLOCKS "/sys/dev/block"
#endif
enum {
    BUCKETS = 64,             /* of the counts of threads that wait for monitors */
    TRIES = 40,               /* before a thread sleeps for a monitor */
    DEMANDS = 3,              /* rounds that a thread without room requests; a later one follows the end of another section */
    POLLED_PART = 8,          /* 1/8 of the time of the last calls: how long a thread without room polls */
    GATHERED_PART = 8,        /* 1/8 of that time: how long a round gathers at most */
    MOST_PART = 20000000,     /* nanoseconds: such a part takes no longer, even after calls that hung */
    FEWEST = 4096,            /* records for each lane: a round's least bound */
    GROUP = ZELAMIKU_GROUP,   /* sections: a thread that waits for as many leaves the round to the helper if other lanes have some */
    USUAL_SLACK = 50000,      /* nanoseconds: the default timer slack of a thread */
    SHORT_SLICE = 100000,     /* nanoseconds: the time slice of a thread that makes rounds or waits for them */
    NAP = 20000,              /* nanoseconds between two checks, for each of many threads that wait for a round */
    OPENING_NAPS = 100,       /* that a fork waits for a file that is being opened */
    SECOND = 1000000000
};

/* A mutex, and where there are asserts, who holds it: an address of that thread's own; or NULL. */
typedef struct {
    pthread_mutex_t mutex;
#ifndef NDEBUG
    const void *holder;
#endif
} mutex;

#ifndef NDEBUG
static _Thread_local char thread_mark;
#endif

static inline bool holds(const mutex *mutex) {
#ifndef NDEBUG
    return mutex->holder == &thread_mark;
#else
    return mutex != NULL;
#endif
}

static inline void lock(mutex *mutex) {
    (void)pthread_mutex_lock(&mutex->mutex);
#ifndef NDEBUG
    mutex->holder = &thread_mark;
#endif
}

static inline void unlock(mutex *mutex) {
    assert(holds(mutex));
#ifndef NDEBUG
    mutex->holder = NULL;
#endif
    (void)pthread_mutex_unlock(&mutex->mutex);
}

/* The structs whose size the program says, in layout 1: no program has a smaller one. None will ever be larger than MOST_STRUCT. */
enum {
    MOST_STRUCT = 4096,
    LEAST_PLAN = 80,
    LEAST_REPORT = 352,
    LEAST_DEVICE = 48,
    LEAST_DROPPED = 32,
    LEAST_STATS = 104,
    LEAST_PROGRESS = 40,
    LEAST_FAILURE = 56
};

typedef struct heap heap;

/* A field in a lane's `changes`: its value before the open section's first store to it, if there was one. */
typedef struct {
    uint64_t stamp; /* the value is valid if `changes` has the same stamp */
    uint64_t value;
    uint32_t next;  /* the field that was saved before it; or NO_FIELD */
    uint16_t guard;
    uint16_t records; /* that a store makes: 0 where the field is transient, else 1 */
} kept_field;

enum { NO_FIELD = ZELAMIKU_MOST_FIELDS, NO_OBJECT = ZELAMIKU_MOST_OBJECTS };

/* What the open section of a lane has changed, in a heap that reverts. Only its thread uses it. It belongs to the section that follows `section`
 * ended ones: when that section ends it is out of date, without a write here. */
typedef struct {
    uint64_t section;
    uint64_t stamp;   /* of the saved values; another one for each section, and after each revert */
    uint32_t used;    /* of the section's 1,000 records: those made, and those that freeing its monitors and restoring the saved values would need */
    uint32_t last;    /* the field that was saved last; or NO_FIELD */
    uint32_t guard;   /* and its guard; or NO_OBJECT */
    uint32_t guards;  /* under how many monitors it has stored, and which */
    uint16_t under[ZELAMIKU_MOST_HELD];
    bool is_past;     /* a monitor under which it had stored was freed, and taken again */
    uint32_t count;   /* how many fields there are, and each */
    kept_field fields[];
} changes;

/* A lane's seat: what others write for the thread that has the lane, and, on other cache lines, what that thread keeps itself. */
typedef struct {
    _Alignas(256) _Atomic uint32_t bell; /* 1: somebody has rung since the last sleep */
    _Atomic uint32_t is_behind;          /* it sleeps until the leader's next step */
    _Atomic uint32_t session_use;        /* whether others may look at monitors with its session: see waits.c */
    _Atomic uint64_t acknowledged;       /* how many sections of the lane are durable */
    uint32_t wanted;                     /* mutex: the object whose monitor it waits for, plus one; 0: none */
    bool is_lent;                        /* mutex: a thread has the lane */
    bool frees_session;                  /* mutex: the heap has ended, and that thread is to free the session */
    bool is_logged;                      /* mutex: the log has reported a circle that it is in */
    _Atomic uint32_t was_cut_off;        /* the heap has ended inside a section of its thread */
    uint64_t turn;                       /* mutex: the thread that waits for the monitor longest has the least */
    _Atomic uint64_t earlier;            /* the sections that the lane had ended when it was lent; changed under the mutex */
    uint64_t asked;                      /* mutex: how many sections its event loop has asked for; 0: all those are durable */
    uint64_t loop_knows;                 /* mutex: how many were durable when its event loop learned that last */
    uint64_t troubles;                   /* mutex: how many failed rounds the loop knows of, or needn't */
    uint64_t lacked_at;                  /* mutex: how many sections had ended when the loop found no room, plus one */
    _Atomic uint64_t begun;              /* how many had ended when the last round began; of a lane with an event */
    int event;                           /* its descriptor, plus one; 0: none. Changed under the mutex and the registry's */
    _Atomic uint32_t has_event;          /* the same, for the leader */
    uint32_t demands;                    /* mutex: rounds that the loop has asked for since it found no room */
    bool lacks_room;                     /* mutex: the loop has found no room, */
    bool may_have_room;                  /* mutex: or has been notified since that it may have some, and hasn't asked again */
    bool counts_as_waiting;              /* mutex: the loop counts among `awaiting` */
    bool is_rung;                        /* mutex: its event is readable, or is to be once there is one */
    _Alignas(128) _Atomic uint64_t number; /* the handle that it is lent by; 0: calls look at `lent_number` and the heap */
    _Atomic uint64_t open;               /* the same while a section is open: a load checks only this */
    _Atomic uint64_t ended;              /* how many sections the lane has ended */
    uint32_t locks;                      /* own: how many locks are held, of all monitors together */
    _Atomic uint32_t is_busy;            /* a section is open, or it waits: nobody else touches the session */
    zelamiku_handle session;             /* own; unless the thread is busy, freed by the thread that ends the heap */
    uint32_t records;                    /* own: about how many it has sent since the section `counted` */
    uint32_t has_stored;                 /* own: the open section has stored to a persistent field */
    _Atomic uint64_t last_stored;        /* the number of the last ended section that has */
    uint32_t lane;
    _Atomic uint64_t lent_number;        /* the handle, also after the heap has ended */
    heap *heap;
    uint64_t counted;                    /* own: how many sections had ended when it began to count the records */
    changes *changes;                    /* own; NULL: no old values are saved */
    uint64_t passed;                     /* own: the last section that has stored to a transient field, if no old values are saved */
} seat;

/* What lies between a heap and a device that keeps sectors whole (src/journal.c). It belongs to the leader. */
typedef struct {
    zelamiku_handle handle; /* open in a heap that has one */
    zelamiku_device below;  /* the device */
    uint64_t size;          /* of the image's place, in bytes */
    uint64_t calls, syncs;  /* made on the device since they were last counted */
} journal;

struct heap {
    _Atomic uint64_t number; /* the handle, also after the heap has ended; 0: never used, or being opened */
    _Atomic uint32_t underway; /* calls in progress: while there are any the place isn't reused */
    uint64_t freed;          /* registry: when its place became free: the place that is free longest is used next */
    bool is_used;            /* registry */
    bool has_mutex;          /* registry: the mutex was initialized, once for all heaps of the place */
    char *path;
    int file;                /* or -1 */
    char *where;             /* the absolute path, to check whether it leads to the file; or NULL */
    uint64_t path_checked;   /* leader: when it was last checked */
    dev_t volume;            /* registry */
    ino_t inode;
    uint64_t size;           /* of the image, in bytes */
    uint64_t linger;         /* nanoseconds */
    uint32_t lanes, objects, fields, processors;
    bool reverts;            /* each lane saves the values that its section changes */
    bool *transient;         /* which fields are; NULL: none is */
    zelamiku_device device;  /* on which the heap's calls are made: the journal, if it has one */
    journal journal;
    zelamiku_log *log;
    void *log_context;
    zelamiku_dropped_section *dropped;
    size_t dropped_count;
    pthread_t helper;
    mutex mutex;
    zelamiku_handle handle;  /* leader */
    uint64_t room;           /* how many records a lane's ring takes, or its log where that is less */
    uint64_t last_calls;     /* leader: how many nanoseconds the calls of the last round took */
    uint64_t affordable;     /* leader: how many records it would have taken in that time */
    uint64_t syncs_made;     /* leader */
    uint64_t syncs_before;   /* leader: how many before the calls of the round whose calls are made now */
    uint32_t urgent;         /* mutex: why a round is wanted now */
    uint32_t waiting_to_lead; /* mutex: how many wait to lead for other work than a round */
    bool is_led;             /* mutex: a thread leads */
    bool is_ending;          /* mutex: the helper must end */
    bool is_troubled;        /* mutex: the last round's write has failed */
    bool is_being_ended;     /* mutex: a thread closes or stops the heap for good, */
    bool has_ended;          /* mutex: and has: no call of the device or the log hook comes any more */
    uint32_t sessions_out;   /* mutex: how many threads must free their sessions (`frees_session`) */
    uint32_t sleepers;       /* mutex: how many waiting threads the next round wakes when it finishes */
    bool leader_waits;       /* mutex: the leader waits for the round itself */
    uint32_t loops;          /* mutex: how many lanes' event loops count among `awaiting` */
    uint32_t expected_sections; /* leader: as `expected`, of lanes with events */
    _Atomic uint32_t events; /* how many lanes have one; changed under the registry's mutex */
    uint64_t turns;          /* mutex: how many were given */
    zelamiku_stats stats;    /* mutex */
    _Alignas(64) _Atomic uint32_t waiting[BUCKETS]; /* how many wait for monitors, by the object modulo the buckets */
    _Atomic uint32_t has_work;              /* a section has ended since the last round began; has_reads stands for some others */
    uint32_t enough;                        /* once a lane has sent so many records, a section's end requests a round */
    _Alignas(64) _Atomic uint32_t end_status; /* what all calls return since the heap has ended; 0 before */
    _Atomic uint32_t is_settled;            /* nothing more will be acknowledged */
    _Atomic uint32_t has_reads;             /* sections have ended that stored nothing: no round comes for them alone */
    _Atomic uint32_t round_bell;            /* changes after each round: all that wait for one sleep on it */
    _Atomic uint32_t helper_bell;           /* changes to wake the helper, which sleeps on it */
    _Atomic uint32_t has_timer;             /* the helper checks again within the linger, rung or not */
    _Atomic uint32_t awaiting;              /* threads that wait for a round and that no round has woken */
    _Atomic uint32_t arrivals;              /* threads that came to wait for their sections since the last round began */
    _Atomic uint32_t expected;              /* threads that the last round has woken: so many may come back */
    _Atomic uint32_t has_more;              /* the last round has reached its bound: the next one comes at once */
    _Atomic uint64_t steps;                 /* odd while the leader takes records from the lanes' rings, which makes room */
    _Atomic uint64_t poll_until;            /* until when threads without room poll, by zelamiku_now */
    _Atomic uint32_t hooks_underway;        /* threads that call the log hook, or are about to: the thread that ends the heap waits for them */
    _Atomic uint64_t rounds, troubles;      /* rounds that have ended; those with a failed write */
    _Atomic int error;                      /* errno of the last failed write, or of what ended the heap */
};

/* A handle is a number: a count of all that were handed out, from bit 24 on; the seat's place in the table, in bytes, or the heap's in `heaps`,
 * in bits 8 to 20; and 1 in bit 0 of a heap's. Place 0 is never used, so the zero handle finds a seat with no session. Seats are never freed: a
 * stale handle is looked up like a valid one, and its number doesn't match. */
#define SEATS ((size_t)ZELAMIKU_MOST_HEAPS * ZELAMIKU_MOST_LANES)
#define PLACE ((SEATS - 1) * sizeof(seat))
static seat seats[SEATS];
static heap heaps[ZELAMIKU_MOST_HEAPS];
_Static_assert((sizeof(seat) & (sizeof(seat) - 1)) == 0, "PLACE is a mask");

static mutex registry = {.mutex = PTHREAD_MUTEX_INITIALIZER};
static _Atomic uint64_t handed_out;
static _Atomic uint32_t opens_underway; /* files that are being opened */

/* A file that is written beside a path and replaces the file there once it is whole. Both files stay locked meanwhile: no other draft is made
 * there, and nobody opens the file that is replaced. */
typedef struct draft {
    char path[PATH_MAX], beside[PATH_MAX]; /* real ones: no links are on the way */
    int old, file;                         /* registry: what is at the path, or -1; the new one, or -1 */
    bool is_in_place;                      /* the new one is at the path */
    struct draft *next;                    /* registry */
} draft;
static draft *drafts; /* registry: all that are underway */

static inline seat *seat_of(zelamiku_thread thread) {
    return &seats[(thread.number & PLACE) / sizeof(seat)];
}

static inline seat *seat_at(heap *heap, uint32_t lane) {
    assert(lane < ZELAMIKU_MOST_LANES);
    return &seats[(size_t)(heap - heaps) * ZELAMIKU_MOST_LANES + lane];
}

static inline heap *place_of(const seat *own) {
    return &heaps[(own - seats) / ZELAMIKU_MOST_LANES];
}

/* A call is counted before it checks whether its handle is that of the place's heap. A thread that reuses the place for another heap sets the
 * number to 0 before it checks whether calls are counted. So a call that has found its number keeps the heap until end_call, even if the heap
 * ends. */
static inline void count_call(heap *heap) {
    heap->underway++;
}

static inline void end_call(heap *heap) {
    assert(heap->underway > 0);
    heap->underway--;
}

/* The same as the call on this heap, in a call that is counted. */
#define COUNTED(heap, call) \
    ({ \
        count_call(heap); \
        zelamiku_status counted_ = (call); \
        end_call(heap); \
        counted_; \
    })

static inline bool is_open(const seat *own, zelamiku_thread thread) {
    return atomic_load_explicit(&own->open, memory_order_relaxed) == thread.number;
}

/* What a call's number names: of a pool, its head. */
typedef enum { OF_OBJECT, OF_FIELD, OF_POOL } kind;

/* In journal.c. */
static zelamiku_status sync_or_order(zelamiku_handle *handle, const zelamiku_device *on);

/* In event.c. */
static uint32_t sections_of_loops(heap *heap);
static uint32_t begin_for_loops(heap *heap);
static void tell_loops(heap *heap, bool is_trouble, bool is_end);
static void note_no_room(heap *heap, seat *own);
static void drop_event(heap *heap, seat *own);
static void close_events(heap *heap);

static uint64_t new_number(size_t place) {
    return ++handed_out << 24 | place;
}
