/* Zelamiku's C API for programs with threads: a heap in a file, named by its path, or on another device.
 *
 *     static const zelamiku_field FIELDS[] = {{0, 0, 100, 0}};                field 0: of object 0, guarded by it, at first 100
 *     zelamiku_plan plan = {.size = sizeof plan, .objects = 1, .fields = FIELDS, .count = 1};
 *     zelamiku_heap heap;
 *     zelamiku_thread own;
 *     if (zelamiku_heap_open(&heap, "accounts.heap", &plan, NULL) != ZELAMIKU_OK) ...     makes the heap, or recovers it
 *     if (zelamiku_thread_begin(&own, heap) != ZELAMIKU_OK) ...                           in each thread
 *     if (zelamiku_thread_enter(own, 0) != ZELAMIKU_OK) ...                               sleeps while another thread has the monitor
 *     if (zelamiku_thread_store(own, 0, 90) != ZELAMIKU_OK) ...
 *     if (zelamiku_thread_exit(own, 0) != ZELAMIKU_OK) ...                                the section ends
 *     if (zelamiku_thread_await(own) != ZELAMIKU_OK) ...                                  sleeps until no crash can lose the section
 *     if (zelamiku_thread_end(own) != ZELAMIKU_OK) ...
 *     if (zelamiku_heap_close(heap) != ZELAMIKU_OK) ...
 *
 * Threads use the heap as they use mutexes and condition variables. The helper, a thread of the library, makes their sections durable, in rounds
 * of two syncs each, or of one on devices that keep sectors whole. Link with -lzelamiku and -pthread. docs/EMBEDDING.md is the manual.
 *
 * Statuses. Every call with a handle returns a status, whatever its arguments. The comment above a call names each status that it can return,
 * except for these, which hold for all calls:
 *   BAD_ARGUMENT         a required pointer is NULL, or the size of a struct isn't set. Nothing was done
 *   NOTHING              the handle was never opened; or its heap has ended, and the library has reused its slot for another heap; or
 *                        zelamiku_thread_end has ended the handle
 *   FORKED               this process is a forked child, and the heap is its parent's. The parent goes on
 * "Ended" in a comment stands for any of the five statuses below. The heap has ended, and what was durable stays. Every later call on the heap
 * returns the same status, unless the call's comment says otherwise:
 *   CLOSED               it was closed or stopped
 *   ABANDONED            it was stopped with this reason (zelamiku_heap_stop)
 *   LOST                 a sync has failed, or the program has closed the heap's descriptor. What wasn't durable may be gone, though reading the
 *                        file still returns it. Close the heap and open it again. If the open fails with EIO, remount the file system, then open
 *   FAILED, WORN         the heap has stopped: there was no memory, or a number has reached its limit. Close the heap, and open it again
 * If the heap ends during an enter or a wait, that call may still succeed, and its section may go on. Then the section's last exit returns the
 * reason.
 * DEVICE doesn't end the heap: a write has failed, for example on a full disk. Nothing is lost. The next call that waits for a round retries
 * the write, and the helper retries it each second. After a stop nothing retries it, so a stop whose write fails returns LOST. Each call that fails
 * also records the path, the cause and the cure, for its thread: zelamiku_heap_failure returns them.
 *
 * Structs. Each struct with a `size` can grow, up to 4,096 bytes. The program sets `size` to sizeof the struct before the call. The library reads
 * and writes no byte beyond that size, so a program that was built with an older header works with a newer library. A member that the program
 * doesn't have is 0, its default. A program that was built with a newer header gets BAD_ARGUMENT if it sets a member that the library doesn't know,
 * and 0 in each member that the library can't fill in. Structs without a `size` never change.
 *
 * Rules. Use a thread's handle in one call at a time, except in calls whose comment says "any thread may". Make no call from a signal handler,
 * and cancel no thread inside a call. Handles are numbers: they may be copied, kept, and handed to other threads. If a process has several
 * copies of the library, a handle belongs to the one that made it. A thread that opens, closes or stops a heap needs 512 kB of stack, one that
 * copies it 64 kB, any other 32 kB.
 *
 * This is unproved C over the proved library; docs/TESTED.md says how it is tested. */
#ifndef ZELAMIKU_H
#define ZELAMIKU_H
#include <stdbool.h>
#include <stddef.h>
#include <stdint.h>
#ifdef __cplusplus
extern "C" {
#endif

/* The version of this header and its library. It rises with each release and each change of this header. */
#define ZELAMIKU_VERSION "0.2.0"
#define ZELAMIKU_VERSION_NUMBER 200 /* 10,000 times the first, 100 times the second, and the third */

/* The layout of this header's calls, statuses and structs: libzelamiku.so.1 has layout 1. It stays the same as long as programs that were built with
 * an older header work with the newer library: new calls, statuses, and members at a struct's end don't change it. */
#define ZELAMIKU_LAYOUT 1

/* The version of the images that the library reads and writes. */
#define ZELAMIKU_IMAGE_VERSION 2

/* Limits. */
#define ZELAMIKU_MOST_HEAPS 256      /* at most 255 may be open at once in a process */
#define ZELAMIKU_MOST_LANES 32
#define ZELAMIKU_MOST_OBJECTS 4096
#define ZELAMIKU_MOST_FIELDS 16384
#define ZELAMIKU_LEAST_CAPACITY 2000
#define ZELAMIKU_MOST_CAPACITY 1048576
#define ZELAMIKU_LEAST_RING 4096
#define ZELAMIKU_MOST_RING 65536
#define ZELAMIKU_MOST_RECORDS 1000   /* of a section: one for each monitor that is taken, each that is freed, and each store */
#define ZELAMIKU_MOST_HELD 16        /* monitors, by one thread at once */
#define ZELAMIKU_MOST_LOCKS 65536    /* of one monitor, by one thread at once */
#define ZELAMIKU_MOST_THIN_LOCKS 256 /* of one monitor at once; one more makes it fat, and so does a wait on it */
#define ZELAMIKU_MOST_FAT 1024       /* monitors that can become fat in one opening */
#define ZELAMIKU_MOST_SLOTS 16383    /* of a pool */

/* Defaults of a plan. */
#define ZELAMIKU_DEFAULT_LANES 8
#define ZELAMIKU_DEFAULT_RING 16384
#define ZELAMIKU_DEFAULT_LINGER 5000 /* microseconds */

#define ZELAMIKU_NOBODY 64                             /* no lane */
#define ZELAMIKU_NO_NUMBER 4294967295u                 /* no object, no field, no slot */
#define ZELAMIKU_NO_DEADLINE 18446744073709551615u
#define ZELAMIKU_ALL_SECTIONS 18446744073709551615u

/* The compiler warns of a dropped status: it may be the only report that the heap has stopped. */
#if defined(__GNUC__)
#define ZELAMIKU_MUST_USE __attribute__((warn_unused_result))
#else
#define ZELAMIKU_MUST_USE
#endif

/* What a call returns. zelamiku_status_text has a text of each. Numbers that are missing here belong to the proved library under this one. */
typedef enum {
    ZELAMIKU_OK = 0,
    ZELAMIKU_NOTHING = 1,         /* the handle was never opened, or isn't open any more */
    ZELAMIKU_NO_MEMORY = 4,       /* there was no memory, no thread, or no descriptor */
    ZELAMIKU_NONE_LEFT = 6,       /* all lanes are in use; or, from zelamiku_heap_open, 255 heaps are open */
    ZELAMIKU_RUNNING = 9,         /* a section is open, or a thread waits */
    ZELAMIKU_UNKNOWN_OBJECT = 10, /* there is no such object */
    ZELAMIKU_UNKNOWN_FIELD = 11,  /* there is no such field */
    ZELAMIKU_NOT_HELD = 12,       /* the thread doesn't hold the monitor, or the one that guards the field; or no section is open */
    ZELAMIKU_BEHIND = 13,         /* until the next round the lane has no room for a whole section's records: try again */
    ZELAMIKU_SECTION_FULL = 14,   /* the section would have more than 1,000 records */
    ZELAMIKU_TOO_MANY = 15,       /* the thread holds 16 monitors; or a pool would have more than 16,383 slots */
    ZELAMIKU_TOO_DEEP = 16,       /* the thread has 65,536 locks of the monitor */
    ZELAMIKU_NO_FAT = 17,         /* 1,024 other monitors were waited on, or held with more than 256 locks at once, before this one */
    ZELAMIKU_WORN = 18,           /* a number has reached its limit: the monitor's 2^40 - 1, the lane's 2^62, the control's 2^64 - 1 */
    ZELAMIKU_HELD = 19,           /* another thread has the monitor, or had it when this one tried */
    ZELAMIKU_FAILED = 22,         /* the heap has stopped, in this call or an earlier one: there was no memory for its calls on the device */
    ZELAMIKU_BAD_ARGUMENT = 24,   /* a pointer is NULL, a struct has a wrong size, or a number is out of its limits */
    ZELAMIKU_NOT_FORMATTED = 25,  /* the file or the device holds something other than a heap, and isn't free */
    ZELAMIKU_TOO_SMALL = 27,      /* the device has fewer bytes than the heap takes */
    ZELAMIKU_DEVICE = 32,         /* a call on the file or the device has failed; the heap goes on */
    ZELAMIKU_LOST = 33,           /* a sync or a stop's last write has failed, the connection has ended or the file was closed: the heap has ended */
    ZELAMIKU_BUSY = 34,           /* another process has the heap, this one has it open already, or the file was replaced meanwhile */
    ZELAMIKU_POOL_EMPTY = 36,     /* no slot of the pool is free */
    ZELAMIKU_NOT_TAKEN = 37,      /* the slot isn't taken, or the pool has no such slot */
    ZELAMIKU_DAMAGED = 38,        /* a field of the pool holds no valid slot number: it isn't a pool's, or other calls stored to it */
    ZELAMIKU_CLOSED = 39,         /* the heap was closed or stopped */
    ZELAMIKU_OLD_VERSION = 40,    /* the image has version 1, from before there were transient fields: a plan with `upgrades` opens it */
    ZELAMIKU_FORKED = 41,         /* the heap belongs to the parent process */
    ZELAMIKU_ABANDONED = 42,      /* the heap was stopped with this reason */
    ZELAMIKU_OTHER_HEAP = 43,     /* the file's heap isn't that of the plan */
    ZELAMIKU_NO_HEAP = 45,        /* the plan says must_exist, and the path has no file, or a free one */
    ZELAMIKU_DAMAGED_FILE = 46,   /* the file's heap can't be read: `damage` of the report says which part */
    ZELAMIKU_NOT_REVERTED = 47    /* the section can't be reverted: see zelamiku_thread_revert */
} zelamiku_status;

/* A field of a heap that is to be made. */
typedef struct {
    uint32_t owner; /* the object that has it */
    uint32_t guard; /* the object whose monitor guards it */
    uint64_t first; /* its first value */
    uint32_t is_transient; /* 0: stores become durable. Else they aren't logged, and the field is `first` again at each open */
} zelamiku_field;

/* Handles of a heap, and of a thread's use of it (a lane). All zeros is never a valid handle. To other languages each is a uint64_t. */
typedef struct {
    uint64_t number;
} zelamiku_heap;
typedef struct {
    uint64_t number;
} zelamiku_thread;

/* ---- texts ---- */

/* A text of a status, for people. It needs no handle, and never fails. */
const char *zelamiku_status_text(uint32_t status);

/* The version of the library. It differs from this header's ZELAMIKU_VERSION_NUMBER if they are of different releases. */
ZELAMIKU_MUST_USE uint32_t zelamiku_version(void);

/* The clock of all deadlines: nanoseconds of CLOCK_MONOTONIC. */
uint64_t zelamiku_now(void);

/* Why a call failed. The texts belong to the calling thread, and are valid until its next call that fails. No text is ever NULL. */
typedef struct {
    uint32_t size;     /* sizeof(zelamiku_failure) */
    uint32_t status;   /* what the call returned; OK: no call of this thread has failed */
    int32_t error;     /* its errno, such as ENOSPC; 0: there was none */
    uint32_t object;   /* the object that the call named; or ZELAMIKU_NO_NUMBER */
    uint32_t field;    /* the field that the call named (for a pool, its head); or ZELAMIKU_NO_NUMBER */
    uint32_t reserved; /* 0 */
    const char *path;  /* of the heap, or of a copy, or the device's name; the last 500 bytes of a longer one. "": there was none */
    const char *call;  /* what was called, such as "open" or "store field 3" */
    const char *cause; /* what went wrong, without the system's text of `error` */
    const char *cure;  /* what to do about it */
} zelamiku_failure;

/* Describes the calling thread's last failed call: fills in `failure`, unless it is NULL, and returns all of it as one line:
 * "PATH: CALL: CAUSE: the text of errno; CURE". Returns "" if no call has failed, and NULL if `failure` has a wrong size, which leaves it unchanged.
 * HELD, BEHIND and POOL_EMPTY aren't failures: they leave the record as it was. */
const char *zelamiku_heap_failure(zelamiku_failure *failure);

/* ---- a device of your own ----
 *
 * A heap needn't lie in a file. Whatever has bytes that can be read, written and synced can hold one: a volume, an NBD export
 * (examples/c/nbd.c), a region of another file. The program provides four functions, which the library calls as SQLite calls a VFS. Each returns
 *   OK      it is done
 *   DEVICE  it failed, and may be tried again. The device keeps what it had; any of this write's bytes may have reached it, or none
 *   LOST    it failed, and no later call may follow: the connection is gone, or what was written since the last sync may be gone. Every
 *           other value counts as LOST
 * A function that fails sets errno to the cause (without one the library reports EIO). What each does:
 *   read    fills all of `bytes` with what was last written at that place, synced or not
 *   write   takes all of the bytes. They needn't be durable before the next sync. No write is longer than 65,536 bytes, and few are aligned
 *   sync    returns OK once all earlier writes are durable: no crash and no loss of power loses them. Return DEVICE only if everything written since
 *           the last successful sync is kept: the library syncs again, and doesn't repeat the writes. The system's fdatasync doesn't
 *           guarantee that, so return LOST if it fails
 *   length  sets `length` to how many bytes the device has. The number must not fall while the heap is open
 * A crash may leave any bytes in the ranges that were written since the last sync. Every other byte must keep its value. docs/FORMAT.md, "What the
 * device keeps", says which devices promise that. Each opening also rewrites three single bytes, at 8, 64 and 1,112, with the values that it has
 * read there: a crash during such a rewrite must not change a durable byte. A heap with a journal (`atomic_sectors`) needs another promise: each
 * sector of 512 bytes must have what it had at the last sync, or what one of the writes since then left there. In place of the three bytes an
 * opening of it rewrites whole pages of 4,096: the first, those of the newest batch, and those of the image if that batch is empty.
 *
 * A heap is made in place if the device is free, that is, if the bytes that the heap takes are zeros, or are what an interrupted making has left.
 * Bytes beyond these are never read. The library doesn't lock the device: the program must see to it that at most one open heap uses it at a
 * time, and that nobody else writes there.
 *
 * Errors. If a function fails while a heap is opened, zelamiku_heap_open returns DEVICE, with the cause. Later, DEVICE doesn't end the heap: the
 * failed call is retried, as the top of this header says; the remaining calls of the round follow in order. LOST ends it.
 *
 * Threads. `read` and `length` are called by the thread that opens the heap; `write` and `sync` by that thread, and later by any thread that
 * waits for a round, closes or stops the heap, or by the helper. Two calls never overlap. None comes after the heap's close or stop has returned,
 * or in a forked child. The caller holds no mutex of the library. A function must not make a call on its heap.
 *
 * A function may take long, or hang. Threads go on until they have no room for a section. A stop wakes at once all threads that sleep for monitors
 * or for room; the stop itself, and threads that await sections, return only after the function has. Nothing cancels it. */
typedef struct {
    uint32_t size; /* sizeof(zelamiku_device) */
    zelamiku_status (*read)(void *context, uint64_t at, void *bytes, size_t size);
    zelamiku_status (*write)(void *context, uint64_t at, const void *bytes, size_t size);
    zelamiku_status (*sync)(void *context);
    zelamiku_status (*length)(void *context, uint64_t *length);
    void *context; /* handed to each; valid until the heap's close or stop has returned */
} zelamiku_device;

/* ---- a heap ---- */

/* The log hook: `level` is one of these, `text` one line without a newline. The helper calls it, or a thread that opens, closes, stops or copies
 * the heap, that waits for a round, or that has waited a second for a monitor. The caller holds no mutex of the library. The hook must not make a
 * call on this heap. The heap's close or stop, and an open that fails, wait for a running hook; after they have returned it isn't called any
 * more. */
enum { ZELAMIKU_LOG_INFO = 0, ZELAMIKU_LOG_WARNING = 1, ZELAMIKU_LOG_ERROR = 2 };
typedef void zelamiku_log(void *context, uint32_t level, const char *text);

/* What a heap is made of, and how it works. Most plans set size, objects, fields and count, and leave the rest 0. The library reads the plan, and
 * what it points to, during zelamiku_heap_open only.
 * Records of a section lie in its lane's ring until a round takes them, and in the lane's log until they are durable. A thread without room in
 * either sleeps until a round. A larger ring and log therefore give more sections a second if syncs are slow and few threads wait. A ring holds
 * no more than its log. */
typedef struct {
    uint32_t size;                 /* sizeof(zelamiku_plan) */
    uint32_t objects;              /* 1 to 4,096, numbered from 0 */
    const zelamiku_field *fields;  /* numbered from 0 */
    uint32_t count;                /* of fields: 1 to 16,384, or with a fingerprint to 16,383 */
    uint32_t lanes;                /* how many threads use the heap at once: 1 to 32; 0 is 8. See zelamiku_heap_open for the helper's lane */
    uint32_t capacity;             /* records of a lane's log: 2,000 to 1,048,576; 0: the same as its ring. An existing heap keeps its own */
    uint32_t ring;                 /* records of a lane's ring: 4,096 to 65,536; 0 is 16,384. 24 bytes of memory each: 393 kB a lane */
    uint32_t linger;               /* microseconds before a round takes a section that has stored and that nobody awaits; 0 is 5,000 */
    uint32_t upgrades;             /* 1: a heap of an older version is upgraded in place; 0: OLD_VERSION */
    uint32_t must_exist;           /* 1: a path without a heap is NO_HEAP, and no file is made */
    uint32_t reverts;              /* 1: zelamiku_thread_revert can undo a section's stores. Takes 24 bytes of memory for each field in each lane */
    uint64_t fingerprint;          /* of the fields' names in the program, or any number: see zelamiku_heap_open. 0: none */
    zelamiku_log *log;             /* or NULL */
    void *log_context;             /* handed to it; valid as long as the hook may be called */
    const zelamiku_device *device; /* the heap is on this device, and the path is its name in messages; NULL: in the file at the path */
    uint32_t atomic_sectors;       /* 1: a heap that is made gets a journal, and rounds take one sync: see "one sync a round". 0: two */
    uint32_t reserved;             /* 0 */
} zelamiku_plan;

/* One sync a round. A plan with `atomic_sectors` is for a device that keeps each sector of 512 bytes whole: after a crash the sector has what it had
 * at the last sync, or what was written to it since. NVMe with power-loss protection and Ceph RBD do (docs/FORMAT.md, "What the device keeps");
 * disks by ATA or SCSI and parity RAID don't, and there such a heap may lose what was durable. An opening logs a warning if the system shows a disk
 * by ATA or SCSI below the file. A journal takes 1.1 MB more on the device, and memory for that and for the image twice more, during an opening or a
 * making three times. An opening finds it by itself: a heap that exists keeps what it has, whatever the plan says. Its rounds need no
 * lane for the helper. */

/* How the file's heap differs from the plan. */
enum {
    ZELAMIKU_SAME = 0,
    ZELAMIKU_DIFFERENT_LANES = 1, /* the file has fewer */
    ZELAMIKU_DIFFERENT_OBJECTS = 2,
    ZELAMIKU_DIFFERENT_COUNT = 3, /* of fields */
    ZELAMIKU_DIFFERENT_OWNER = 4,
    ZELAMIKU_DIFFERENT_GUARD = 5,
    ZELAMIKU_DIFFERENT_MARK = 6,  /* is_transient */
    ZELAMIKU_DIFFERENT_FINGERPRINT = 7 /* the plan's names, or their order */
};

/* Which part of a file is damaged. */
enum {
    ZELAMIKU_UNDAMAGED = 0,
    ZELAMIKU_DAMAGED_HEADER = 1,  /* a number of the header is out of its limits */
    ZELAMIKU_DAMAGED_LENGTH = 2,  /* the file is shorter than its heap */
    ZELAMIKU_DAMAGED_CONTROL = 3, /* there is no control, or it can't be read */
    ZELAMIKU_DAMAGED_RECORD = 4,  /* a record can't be read */
    ZELAMIKU_DAMAGED_LOG = 5      /* no threads can have left these records */
};

/* What an opening found. The helper's lane is left out: `lanes` counts the threads' lanes, and `dropped` the threads' sections that were dropped.
 * A section that no round had logged is lost without being counted.
 * Exception: if `dropped` isn't 0, `undone` also counts fields whose old values were in the helper's lane. If `dropped` is 0, `undone` is 0. */
typedef struct {
    uint32_t size;         /* sizeof(zelamiku_report) */
    uint32_t is_made;      /* 1: the path had no heap, and this open made one */
    uint32_t is_upgraded;  /* 1: it had an older version */
    uint32_t objects, fields, lanes;
    uint32_t capacity;     /* the records that a lane's log holds */
    uint32_t damage;       /* after DAMAGED_FILE: which part, ZELAMIKU_DAMAGED_.. */
    uint32_t bad_lane;     /* after ZELAMIKU_DAMAGED_RECORD and .._LOG: the record's lane; else ZELAMIKU_NOBODY */
    uint32_t difference;   /* after OTHER_HEAP: the first difference found, ZELAMIKU_DIFFERENT_.. */
    uint32_t field;        /* which field, for OWNER, GUARD and MARK */
    uint32_t reserved;     /* 0 */
    uint64_t has, planned; /* after OTHER_HEAP: what differs, as the file has it and as the plan has it */
    uint64_t bad_place;    /* the bad record's place in its lane */
    uint64_t bytes;        /* of the image */
    uint64_t dropped;      /* the sections that recovery dropped; none was acknowledged. zelamiku_heap_dropped has each */
    uint64_t undone;       /* the fields that recovery has set back to an old value */
    uint64_t kept[ZELAMIKU_MOST_LANES]; /* how many of each lane's sections since the previous opening were kept */
} zelamiku_report;

/* Opens the heap in the file at this path: recovers it, or makes it if there is no file, or a free one (empty, only zeros, or left by an
 * interrupted making). Starts its helper. The file stays locked while the heap is open. `report` may be NULL; it is filled in even if the call
 * fails. After a failure `heap` isn't a valid handle.
 * A heap is made in a new file beside the path (PATH.heapctl-new, after following the path's symbolic links). That file is locked, synced and
 * renamed to the path, and the folder is synced. If the process dies meanwhile, the path stays as it was, and the next making or copy there
 * replaces the file beside it.
 * Each opening syncs the folder of the real path, or its whole file system if the folder can't be read. After that no crash loses the file's
 * name, even if the file was renamed to the path just before.
 * The path may name a block device: a disk, a partition, a logical volume, or one on another machine (RBD, DRBD, iSCSI, the kernel's NBD). It is
 * opened with O_EXCL, so the system doesn't mount it meanwhile. A heap is made in place there, as on a device of your own.
 * A new heap has a lane for each of the plan's threads, and one more for the helper; with it rounds take two syncs. With 32 threads it has 32
 * lanes, and none for the helper: rounds take four. An existing heap may have more lanes than the plan has threads: its last lane is then the
 * helper's, and all others are threads'. One with as many lanes as the plan has threads is opened too, without a lane for the helper: rounds
 * take four. The file doesn't record whether its last lane was the helper's. If the last lane was a thread's and is now the helper's, the report
 * omits that thread's sections. If it was the helper's and is now a thread's, the report counts the helper's sections as dropped (UNSETTLED).
 * A heap made by a plan with a fingerprint has one field more, the last: transient, of object 0, with the fingerprint as its first value. The
 * report doesn't count it, and programs don't use it: a store there lasts until the heap is closed, and changes no fingerprint. A heap with no
 * fingerprint and as many fields as the plan is opened too.
 *
 * Returns OK, or one of these:
 *   BAD_ARGUMENT    a number of the plan is out of its limits, or a field names an object that the plan doesn't have; the failure's cause says which
 *   BUSY            another process has the heap, makes one there, or has locked the file (any program that may read the file can lock it). Or this
 *                   process has it open, by this or another name: close that heap first, even if the program has closed its descriptor. Or the file
 *                   was replaced meanwhile. Never for a device of your own
 *   NO_HEAP         there is no heap, and the plan says must_exist: there is no file, or a free one
 *   OTHER_HEAP      the file's heap isn't that of the plan: the report has the first difference
 *   OLD_VERSION     an older library made the heap, and the plan doesn't say `upgrades`
 *   NOT_FORMATTED   the file holds something else, or a heap whose first bytes were damaged. To make a heap over the contents of a device, write
 *                   zeros over them first
 *   DAMAGED_FILE    something else has written the heap's file, it was cut, or its disk has lost what it had synced: the report says which part
 *                   is damaged, and which record
 *   WORN            the control's sequence has reached its limit, 2^64 - 1, or its journal's numbers have: move the values to a new heap
 *   TOO_SMALL       a device, or a block device, has fewer bytes than the heap takes
 *   DEVICE          the file can't be opened, made, locked, read or written, or its folder can't be synced: the failure has the system's error
 *   NONE_LEFT       255 heaps are open
 *   NO_MEMORY       no memory, or no thread could be started
 * None of these changes an existing file or device, or leaves a file where there was none. Exceptions: if a new heap's folder can't be synced
 * (DEVICE), a file that was free may hold the heap. After NO_MEMORY, or a DEVICE caused by a write or a sync, a new heap may be there, and a heap
 * that was there may have been recovered. After such a DEVICE a free device may also hold a part of a new heap. Opening again goes on from there. */
ZELAMIKU_MUST_USE zelamiku_status zelamiku_heap_open(zelamiku_heap *heap, const char *path, const zelamiku_plan *plan,
                                                     zelamiku_report *report);

/* Why a section was dropped. */
enum {
    ZELAMIKU_NOT_DROPPED = 0, /* no dropped section has this index, or the heap has ended */
    ZELAMIKU_NOT_ENDED = 1,   /* it hadn't ended */
    ZELAMIKU_DEPENDED = 2,    /* it depends on another that wasn't kept */
    ZELAMIKU_UNSETTLED = 3    /* it had ended, and wasn't acknowledged */
};

/* A section that recovery dropped. */
typedef struct {
    uint32_t size;          /* sizeof(zelamiku_dropped) */
    uint32_t why;           /* ZELAMIKU_NOT_ENDED, .. */
    uint32_t lane;
    uint32_t other_lane;    /* after ZELAMIKU_DEPENDED: the lane of the section on which it depends; else ZELAMIKU_NOBODY */
    uint64_t section;       /* its number in its lane, from 1, since the previous opening */
    uint64_t other_section; /* and that section's number */
} zelamiku_dropped;

/* Fills in one of the sections that recovery dropped: `index` is from 0 to the report's `dropped` - 1, by lane and then by number. Past the last
 * one, and after the heap has ended, `why` is ZELAMIKU_NOT_DROPPED. Returns OK. */
ZELAMIKU_MUST_USE zelamiku_status zelamiku_heap_dropped(zelamiku_heap heap, size_t index, zelamiku_dropped *dropped);

/* Makes all sections durable, and closes the heap. No section may be open. Threads that still have lanes get CLOSED. Returns OK, or
 *   RUNNING   a section is open, or a thread waits. The heap stays open
 *   DEVICE    a write has failed. The heap stays open
 *   Ended     the heap had ended already, or its last round has failed: what wasn't durable may be lost. The heap is released now. If another thread
 *             is closing or stopping it, this call waits until it has ended
 *   NO_MEMORY all sections are durable, but the close's own last writes and syncs weren't all made. The heap has ended; the next open recovers it.
 *             FAILED and WORN may also mean this */
ZELAMIKU_MUST_USE zelamiku_status zelamiku_heap_close(zelamiku_heap heap);

/* Stops a heap whose threads may be in sections or wait: from now on their calls return `why`, even calls that sleep now. Before the stop returns,
 * it makes all ended sections durable, except those that depend on an open one. The next open drops these and the open ones, as after a crash.
 * `why` is ZELAMIKU_CLOSED; or ZELAMIKU_ABANDONED, for a heap with a thread that has exited, or failed, inside its section. The memory of a lane
 * in a section is kept until its thread calls again.
 * The heap has ended after each of these: OK, or
 *   LOST   the last write or sync has failed: the next open may drop sections that had ended, too. The failure has the system's error
 *   Ended  the heap had ended already; or its last round has failed: no memory (FAILED), or a number at its limit (WORN)
 * BAD_ARGUMENT, for every other `why`: nothing was done. */
ZELAMIKU_MUST_USE zelamiku_status zelamiku_heap_stop(zelamiku_heap heap, zelamiku_status why);

/* Copies the heap, as it is between two rounds, to the path. The copy is written to a file beside the path, synced, and renamed over the file
 * there, which is locked until then. Threads go on meanwhile. The copy has all that was durable when the call began.
 * Returns OK, or
 *   DEVICE     the copy can't be written, and the path is unchanged. But if the cause is that the folder can't be synced, the new copy is at the
 *              path, and a power failure may bring back the file before it
 *   BUSY       this heap or another one is open at that path, or another heap or copy is being made there
 *   NO_MEMORY  there is no memory for the copy
 *   Ended */
ZELAMIKU_MUST_USE zelamiku_status zelamiku_heap_copy(zelamiku_heap heap, const char *path);

/* Why the last round came. */
enum {
    ZELAMIKU_ROUND_NONE = 0,
    ZELAMIKU_ROUND_AWAITED = 2, /* a thread waits for its sections */
    ZELAMIKU_ROUND_ROOM = 3,    /* a thread has no room for a section's records */
    ZELAMIKU_ROUND_FULL = 4,    /* a lane has sent three quarters of what its ring or its log takes */
    ZELAMIKU_ROUND_LINGER = 5,  /* the linger has passed */
    ZELAMIKU_ROUND_AGAIN = 6,   /* a second after a write has failed */
    ZELAMIKU_ROUND_CLOSING = 7,
    ZELAMIKU_ROUND_LEFT = 8     /* the previous round reached its bound and left records */
};

/* Counts since the open. Each is exact; they are read one after another, at moments close to each other. Times are nanoseconds. */
typedef struct {
    uint32_t size;          /* sizeof(zelamiku_stats) */
    uint32_t lent;          /* lanes in use */
    uint32_t awaiting;      /* threads that wait, asleep or in an event loop, until their sections are durable or there is room */
    uint32_t entering;      /* threads that sleep for a monitor */
    uint32_t last_cause;    /* ZELAMIKU_ROUND_.. */
    uint32_t is_astray;     /* 1: at the last check the path led to another file or to none; rounds check it each second */
    uint64_t rounds;        /* that have ended, including those with a failed call */
    uint64_t sections;      /* that are durable */
    uint64_t records;       /* that rounds took */
    uint64_t calls, syncs;  /* made on the device; syncs are among the calls */
    uint64_t troubles;      /* rounds with a failed write */
    uint64_t calls_time;    /* spent in the calls of all rounds */
    uint64_t longest_round; /* from its first record to its last call */
    uint64_t two_sync_rounds;  /* rounds with two syncs, all their calls made */
    uint64_t four_sync_rounds; /* with four: the heap has no lane for the helper, or that lane has no room for what the round changed; or
                                * it has a journal, and that has no room for it */
    uint64_t one_sync_rounds;  /* with one: the heap has a journal */
} zelamiku_stats;

/* Fills in the counts. Returns OK, also after the heap has ended. */
ZELAMIKU_MUST_USE zelamiku_status zelamiku_heap_stats(zelamiku_heap heap, zelamiku_stats *stats);

/* A thread that sleeps for a monitor. */
typedef struct {
    uint32_t lane;      /* the thread's */
    uint32_t object;    /* whose monitor it wants */
    uint32_t owner;     /* the lane that has it; ZELAMIKU_NOBODY: none now, or unknown, because every lane was busy at that moment */
    uint32_t in_circle; /* 1: it waits in a circle of threads, none of which can go on */
} zelamiku_wait;

/* Lists, by lane, which threads sleep for monitors now, and who has each monitor. `written` gets how many were put into `waits`; there are
 * ZELAMIKU_MOST_LANES at most. Threads that wait for a notification aren't listed. The library doesn't break a circle: a thread in it gives up
 * at its deadline, or the heap is stopped. The log hook reports each circle once, after one of its threads has slept for a second.
 * Returns OK; Ended: `written` is 0. */
ZELAMIKU_MUST_USE zelamiku_status zelamiku_heap_waits(zelamiku_heap heap, zelamiku_wait *waits, size_t count, size_t *written);

/* Sleeps until more than `seen` rounds have ended, or until the deadline (zelamiku_now); ZELAMIKU_NO_DEADLINE means none. `rounds` gets how many have
 * ended. If some ended section hasn't been taken by a round, the call requests one. Any thread may call it, without a lane: one thread can wait for
 * the sections of many (zelamiku_thread_progress). Returns OK, also at the deadline; DEVICE: the write of a round has failed; Ended. */
ZELAMIKU_MUST_USE zelamiku_status zelamiku_heap_await_round(zelamiku_heap heap, uint64_t seen, uint64_t deadline, uint64_t *rounds);

/* ---- a thread's use of a heap ---- */

/* Hands out a lane that is free. Returns OK; NONE_LEFT: all are in use; Ended. After a failure `thread` isn't a valid handle. */
ZELAMIKU_MUST_USE zelamiku_status zelamiku_thread_begin(zelamiku_thread *thread, zelamiku_heap heap);

/* Releases the lane. Returns OK; RUNNING: the thread holds a monitor, and nothing was done; Ended: the lane is released too. */
ZELAMIKU_MUST_USE zelamiku_status zelamiku_thread_end(zelamiku_thread thread);

/* Locks the object's monitor, or locks it once more. Sleeps while another thread has it, or until a round makes room in the lane. Threads that
 * sleep for one monitor get it in the order in which they came; but a thread that calls while the monitor is free may get it first. Take monitors in
 * one order everywhere: two threads that wait for each other's monitors wait for ever.
 * Returns OK; UNKNOWN_OBJECT, SECTION_FULL, TOO_MANY, TOO_DEEP, NO_FAT, WORN (of this monitor or lane: the heap goes on); DEVICE, if it waited for
 * a round that can't write: the thread holds what it held before. Ended. */
ZELAMIKU_MUST_USE zelamiku_status zelamiku_thread_enter(zelamiku_thread thread, uint32_t object);

/* The same, sleeping until the deadline at most (zelamiku_now). With a deadline of 0 it never sleeps. It also returns
 *   HELD    the monitor was still taken at the deadline
 *   BEHIND  the lane was still full; the call has requested a round */
ZELAMIKU_MUST_USE zelamiku_status zelamiku_thread_enter_until(zelamiku_thread thread, uint32_t object, uint64_t deadline);

/* Unlocks the monitor once. The last unlock frees it, and the section ends when its last monitor is free.
 * Returns OK; UNKNOWN_OBJECT, NOT_HELD: nothing was done. Ended: the monitor is unlocked all the same. */
ZELAMIKU_MUST_USE zelamiku_status zelamiku_thread_exit(zelamiku_thread thread, uint32_t object);

/* Loads a field whose guard is held. Returns OK; UNKNOWN_FIELD, NOT_HELD, Ended: `value` is 0. */
ZELAMIKU_MUST_USE zelamiku_status zelamiku_thread_load(zelamiku_thread thread, uint32_t field, uint64_t *value);

/* Stores a field whose guard is held. Returns OK; UNKNOWN_FIELD, NOT_HELD, SECTION_FULL, Ended: nothing was stored. */
ZELAMIKU_MUST_USE zelamiku_status zelamiku_thread_store(zelamiku_thread thread, uint32_t field, uint64_t value);

/* Undoes what the open section has stored: each field gets the value that it had before the section's first store to it, and each slot of a pool
 * is taken or free as it was. The monitors stay held and the section goes on. It may store again; otherwise it ends as a section without stores.
 * A crash never shows a state in between: it keeps or drops the whole section. Threads that the section has notified stay notified.
 *   - A section can be reverted while it holds every monitor under which it has stored. Once it has freed one of them, by an exit or a wait,
 *     and goes on with others, it can no longer be reverted: other threads may have seen those values. For this rule, stores that a revert has
 *     undone don't count.
 *   - A wait with no other monitor held ends the section: its stores stay. A later revert undoes the stores since the wait.
 *   - One record of the section's 1,000 is kept free for each persistent field that it has stored to, for the old value. So it can store to
 *     499 fields under one monitor. A store, an enter or a wait that would need that room returns SECTION_FULL; a revert never does.
 * Returns OK, also if there is nothing to undo. NOT_HELD: no section is open. NOT_REVERTED: the section has freed a monitor under which it had
 * stored, or it has stored and the plan hasn't set `reverts`; nothing was undone. Ended: the section never ends, so nothing of it becomes
 * durable. */
ZELAMIKU_MUST_USE zelamiku_status zelamiku_thread_revert(zelamiku_thread thread);

/* Frees a monitor that is held, with all its locks, sleeps until another thread notifies this one, and takes it again with as many locks. There
 * are no spurious wake-ups. If no other monitor is held the section ends, and the next one begins when the thread wakes.
 * Returns OK; UNKNOWN_OBJECT, NOT_HELD, BEHIND, SECTION_FULL, NO_FAT, WORN, DEVICE: the monitor is held as before. Ended: it isn't held. */
ZELAMIKU_MUST_USE zelamiku_status zelamiku_thread_wait(zelamiku_thread thread, uint32_t object);

/* Notifies one thread that waits on the monitor; with `all`, every one. The caller must hold the monitor. Notified threads go on once it is free,
 * in any order. `lanes` gets the bit 1 << lane for each, or 0 if none waits; it may be NULL. If several wait and one is notified, any of them may be
 * chosen, and one may be passed over for ever. Returns OK; UNKNOWN_OBJECT, NOT_HELD, Ended: nobody is notified. */
ZELAMIKU_MUST_USE zelamiku_status zelamiku_thread_notify(zelamiku_thread thread, uint32_t object, bool all, uint64_t *lanes);

/* A monitor, as zelamiku_thread_look sees it. */
typedef struct {
    uint32_t owner; /* its owner's lane; ZELAMIKU_NOBODY if it is free */
    uint32_t locks; /* how many locks the owner has */
    uint64_t number; /* how often it has become free */
} zelamiku_sight;

/* Looks at a monitor, which needn't be held: its owner's lane, and how many locks the owner has. Returns OK; UNKNOWN_OBJECT, Ended: `sight` describes
 * a free monitor. */
ZELAMIKU_MUST_USE zelamiku_status zelamiku_thread_look(zelamiku_thread thread, uint32_t object, zelamiku_sight *sight);

/* A thread's progress. */
typedef struct {
    uint32_t size;     /* sizeof(zelamiku_progress) */
    uint32_t lane;
    uint32_t is_open;  /* 1: it has a section open, or the heap has ended inside one */
    uint32_t end;      /* OK while the heap goes on; then the status that its calls return */
    uint64_t sections; /* how many sections the thread has ended since zelamiku_thread_begin */
    uint64_t durable;  /* how many of these are durable, counted from the first */
    uint64_t earlier;  /* how many sections the lane had ended in this opening before zelamiku_thread_begin. Section n of the lane in the next
                          opening's report (zelamiku_dropped, and `kept`) is this thread's section n - earlier */
} zelamiku_progress;

/* Fills in the thread's progress. Any thread may call it. Returns OK, also after the heap has ended. After a failure `lane` is ZELAMIKU_NOBODY,
 * and all else is 0. */
ZELAMIKU_MUST_USE zelamiku_status zelamiku_thread_progress(zelamiku_thread thread, zelamiku_progress *progress);

/* Sleeps until the thread's first `sections` sections are durable, at most until the deadline (zelamiku_now, or ZELAMIKU_NO_DEADLINE).
 * ZELAMIKU_ALL_SECTIONS, or a number above those ended, means all. The call requests a round. A section that depends on an open one becomes durable
 * only after that one has ended. `is_durable` becomes true if all the awaited sections are durable, else false. With a deadline that has passed the
 * call requests the round and doesn't sleep. A timeout changes nothing for the sections. Any thread may call it. Returns OK, also at the deadline, or
 *   RUNNING  only for ZELAMIKU_ALL_SECTIONS itself: the thread has a section open. Exit its monitors first
 *   DEVICE   a write has failed: call again
 *   Ended    the sections did not become durable; or, for ZELAMIKU_ALL_SECTIONS alone, an open one was cut off */
ZELAMIKU_MUST_USE zelamiku_status zelamiku_thread_await_until(zelamiku_thread thread, uint64_t sections, uint64_t deadline,
                                                              bool *is_durable);

/* The same for all sections, without a deadline: OK means that no crash loses what the thread has done. */
ZELAMIKU_MUST_USE static inline zelamiku_status zelamiku_thread_await(zelamiku_thread thread) {
    bool is_durable = false;
    return zelamiku_thread_await_until(thread, ZELAMIKU_ALL_SECTIONS, ZELAMIKU_NO_DEADLINE, &is_durable);
}

/* ---- a pool: slots that are taken and released ----
 *
 * A pool has slots, numbered from 0. It lies in persistent fields of one object, which guards them: the head, and after it a field for each
 * slot. The program keeps a slot's contents in fields of its own, as field BASE + slot. To make lists and trees, it stores the numbers of other
 * slots there. If a crash drops a section, the slots that it took or released are as they were before it. The program must not store to the
 * pool's fields by other calls. The image doesn't record where a pool lies: the program must know. */

/* Fills in the fields of a pool of `count - 1` slots, all free: `fields` gets the head and then the slots, one after another, for the plan.
 * Returns OK. BAD_ARGUMENT: `count` is below 2. TOO_MANY: it is above ZELAMIKU_MOST_SLOTS + 1. After either error `fields` is unchanged
 * and no failure is recorded. `fields` must not be NULL. */
ZELAMIKU_MUST_USE zelamiku_status zelamiku_pool_fields(uint32_t object, zelamiku_field *fields, size_t count);

/* Takes a free slot of the pool with this head and this number of slots. The thread must hold the monitor of the pool's object; the call makes two
 * records. Returns OK; POOL_EMPTY, DAMAGED, UNKNOWN_FIELD, NOT_HELD, SECTION_FULL, Ended: nothing was stored, and `slot` is ZELAMIKU_NO_NUMBER. */
ZELAMIKU_MUST_USE zelamiku_status zelamiku_thread_take(zelamiku_thread thread, uint32_t head, uint32_t slots, uint32_t *slot);

/* Releases a slot that was taken: it is the next one to be taken. The thread must hold the monitor of the pool's object; the call makes two records.
 * Returns OK; NOT_TAKEN, DAMAGED, UNKNOWN_FIELD, NOT_HELD, SECTION_FULL, Ended: nothing was stored. */
ZELAMIKU_MUST_USE zelamiku_status zelamiku_thread_give(zelamiku_thread thread, uint32_t head, uint32_t slots, uint32_t slot);

/* ---- threads with an event loop ----
 *
 * Such a thread serves any number of clients by one lane, without sleeping for durability: it holds each reply back until its section is durable.
 *     for (each client that has sent something) run a section; queue its reply under the section's number, which the program counts
 *     zelamiku_thread_ask(own, &durable)         once for all of them, before it waits for events
 *     for (each reply that waits under a number up to `durable`) send it
 *     epoll_wait(..)                             for its clients, and for the event
 * One round makes all their sections durable. Ask also for a section that has only loaded: it may have read values that aren't durable yet. A thread
 * that has nothing else to do meanwhile may call zelamiku_thread_await instead, and needs no event. */

/* Returns the thread's event: a descriptor that becomes readable
 *   - once a round has made some of the requested sections durable,
 *   - once the lane may have room again, after zelamiku_thread_enter_until with a deadline of 0 returned BEHIND,
 *   - once a write has failed while the thread waits for requested sections or for room, and
 *   - once the heap has ended.
 * zelamiku_thread_ask makes it unreadable. Exception: the first zelamiku_thread_ask after the event has reported room leaves it readable, unless a
 * section of the thread has ended since. So a loop that asks before it waits still wakes up and tries again. The first call makes the descriptor. It
 * belongs to the library: only wait for it, by level or by edge. zelamiku_thread_end closes it, also after the heap has ended, and a fork closes it
 * in the child: remove it from the loop first. If the program has closed it by mistake, the library doesn't touch whatever file has that number by
 * then, and the next call makes another one.
 * Returns OK, also after the heap has ended. NO_MEMORY: the system has no descriptor; the failure has its error. `descriptor` is -1 after each
 * failure. */
ZELAMIKU_MUST_USE zelamiku_status zelamiku_thread_event(zelamiku_thread thread, int *descriptor);

/* Returns how many of the thread's sections are durable, and requests a round if more have ended. It doesn't wait for a round; it may sleep only
 * briefly, while other threads are in short calls. Ask again after further sections have ended; a request stands until its sections are durable.
 * Returns OK; DEVICE, once for each write that fails meanwhile: the write is retried each second, and nothing is lost. Ended: the others did not
 * become durable, or an open section was cut off. `durable` is set in each case. */
ZELAMIKU_MUST_USE zelamiku_status zelamiku_thread_ask(zelamiku_thread thread, uint64_t *durable);

/* The library was built for these sizes. */
#if defined(__cplusplus) ? __cplusplus >= 201103L : defined(__STDC_VERSION__) && __STDC_VERSION__ >= 201112L
#ifdef __cplusplus
#define ZELAMIKU_HAS_SIZE(type, size) static_assert(sizeof(type) == (size), #type)
#else
#define ZELAMIKU_HAS_SIZE(type, size) _Static_assert(sizeof(type) == (size), #type)
#endif
ZELAMIKU_HAS_SIZE(zelamiku_status, 4);
ZELAMIKU_HAS_SIZE(zelamiku_field, 24);
ZELAMIKU_HAS_SIZE(zelamiku_heap, 8);
ZELAMIKU_HAS_SIZE(zelamiku_thread, 8);
ZELAMIKU_HAS_SIZE(zelamiku_failure, 56);
ZELAMIKU_HAS_SIZE(zelamiku_device, 48);
ZELAMIKU_HAS_SIZE(zelamiku_plan, 88);
ZELAMIKU_HAS_SIZE(zelamiku_report, 352);
ZELAMIKU_HAS_SIZE(zelamiku_dropped, 32);
ZELAMIKU_HAS_SIZE(zelamiku_stats, 112);
ZELAMIKU_HAS_SIZE(zelamiku_wait, 16);
ZELAMIKU_HAS_SIZE(zelamiku_sight, 16);
ZELAMIKU_HAS_SIZE(zelamiku_progress, 40);
#endif

#ifdef __cplusplus
}
#endif
#endif
