/* The calls of the proved library. This header belongs to the scheduler (bindings/c/src), and to tests and measurements. It isn't installed: a
 * program includes zelamiku.h. The names here may change with each release. EMPTY, of a heap or a pool to be made, is ZELAMIKU_BAD_ARGUMENT.
 *
 * What the caller upholds, for each call:
 *  - a handle begins as ZELAMIKU_NONE, isn't copied, and is changed by these calls alone. A handle may go to another thread;
 *  - one call at a time uses a handle: the threads order their calls by a mutex, a start or join, or sequentially consistent atomics;
 *  - pointers are never NULL, even if a size or count is 0; they are valid for the call, point to initialized memory that nothing else reads or
 *    writes meanwhile, and don't overlap;
 *  - the device is changed by the calls of zelamiku_next_call alone, in their order, one at a time;
 *  - malloc, realloc and free are of one allocator, and align a block to each power of two up to 16 that divides its size, as those of C11 do;
 *  - no call comes from a signal handler, or in a child that was forked by a process with threads.
 * Everything else returns a status. No call waits, blocks, starts a thread or panics; each out-parameter is always set.
 *
 * The device. The proved library has no file: it works in memory, and its host, the scheduler, writes and syncs. zelamiku_next_call returns the
 * next call, the host makes it, and zelamiku_call_done confirms it:
 *     uint8_t buffer[ZELAMIKU_MOST_BYTES];
 *     zelamiku_call call = {0};
 *     for (;;) {
 *         if (zelamiku_next_call(&heap, &call, buffer, sizeof buffer) != ZELAMIKU_OK) return -1;
 *         if (call.kind == ZELAMIKU_NO_CALL) return 0;
 *         if (call.size > sizeof buffer) return -1; // it isn't whole in the buffer
 *         bool made = call.kind == ZELAMIKU_WRITE ? pwrite(fd, buffer, call.size, (off_t)call.at) == (ssize_t)call.size
 *                                                 : fdatasync(fd) == 0;
 *         if (!made) return zelamiku_call_failed(&heap) == ZELAMIKU_OK ? 1 : -1; // and never zelamiku_call_done for it
 *         if (zelamiku_call_done(&heap) != ZELAMIKU_OK) return -1;
 *     }
 * A failed write may be made again: zelamiku_next_call returns the same call again. But only on the same device: over a new connection, the
 * writes since the last sync may be gone, so either all of them are made again, or the heap is released.
 * A failed sync may not be made again, and no later call may follow. What was written before it may be lost, though the file still reads as it
 * was written, and though a later sync succeeds: systems drop the pages that they couldn't write. After zelamiku_call_failed has reported it,
 * the heap has stopped: each later call of it returns ZELAMIKU_STOPPED, and so does each session that would enter, wait or resume. Free the
 * handles, and open the heap again from bytes that the device itself has: read past the system's cache, or after the file system was mounted
 * again.
 *
 * The premise on the device: between two syncs each range that is written may hold any bytes after a crash, and every other byte stays. A device
 * of sectors, and the system's page cache, also rewrite the neighbours of a range. There the premise holds exactly if rewriting a durable byte
 * with its own value can't lose it (SQLite's powersafe overwrite). NVMe promises that of a logical block, and replicated Ceph RBD does; ATA and
 * SCSI don't, nor drives without power-loss protection, nor parity RAID without a journal: docs/FORMAT.md, "What the device keeps".
 * One host writes the device at a time. If another machine may open it, the device must first end the access of the machine before it, with
 * its requests in flight: docs/EMBEDDING.md, "Another machine".
 *
 * Waiting is the host's. After ZELAMIKU_HELD, ZELAMIKU_BEHIND or ZELAMIKU_IN_SET, try again later; other statuses stay:
 *     for (unsigned spins = 0; (answer = zelamiku_try_enter(&session, object)) == ZELAMIKU_HELD || answer == ZELAMIKU_BEHIND; spins++)
 *         if (spins > 100) sched_yield();
 *     if (answer != ZELAMIKU_OK) ...
 * With a condition variable of the host's own, signal each exit, each notification and each failed call to the waiting threads:
 *     pthread_mutex_lock(&m);
 *     while ((answer = zelamiku_try_resume(&session)) == ZELAMIKU_IN_SET || answer == ZELAMIKU_HELD) pthread_cond_wait(&changed, &m);
 *     pthread_mutex_unlock(&m);
 *     if (answer != ZELAMIKU_OK) ...
 *     if (zelamiku_exit(&session, object) != ZELAMIKU_OK) ...
 *     pthread_mutex_lock(&m); pthread_cond_broadcast(&changed); pthread_mutex_unlock(&m);
 */
#ifndef ZELAMIKU_CORE_H
#define ZELAMIKU_CORE_H
#include "zelamiku.h"
#ifdef __cplusplus
extern "C" {
#endif

/* Statuses of the proved library that no call of zelamiku.h returns. */
#define ZELAMIKU_OPEN ((zelamiku_status)2)         /* the handle to be opened is open already */
#define ZELAMIKU_WRONG_KIND ((zelamiku_status)3)   /* a session where a heap is wanted, or a heap where a session is */
#define ZELAMIKU_WAITING ((zelamiku_status)5)      /* the session waits for a monitor: it can do nothing but resume */
#define ZELAMIKU_CALLS_LEFT ((zelamiku_status)7)   /* the host has yet to make calls of the device */
#define ZELAMIKU_BAD_LANE ((zelamiku_status)8)     /* there is no such lane */
#define ZELAMIKU_IN_SET ((zelamiku_status)20)      /* nobody has notified the session */
#define ZELAMIKU_FAULT ((zelamiku_status)21)       /* there was no memory for the calls of the device: no heap was made, or the heap has stopped */
#define ZELAMIKU_UNFINISHED ((zelamiku_status)23)  /* a session was ended while it held a monitor */
#define ZELAMIKU_BAD_HEADER ((zelamiku_status)26)  /* a number of the image, or of the heap to be made, is out of its limits */
#define ZELAMIKU_NO_CONTROL ((zelamiku_status)28)  /* the image has no control */
#define ZELAMIKU_BAD_CONTROL ((zelamiku_status)29) /* the image's control can't be read */
#define ZELAMIKU_BAD_RECORD ((zelamiku_status)30)  /* the image has a record that can't be read */
#define ZELAMIKU_ILLEGAL_LOG ((zelamiku_status)31) /* no threads can have left the image's log */
#define ZELAMIKU_STOPPED ((zelamiku_status)35)     /* the heap has stopped because the host reported a failed sync */
#define ZELAMIKU_RING ((zelamiku_status)44)        /* a lane's ring would hold fewer than 4,096 records, or more than 65,536 */
#define ZELAMIKU_WORN_JOURNAL ((zelamiku_status)48) /* the stamps of the journal's batches have come to the end of their numbers */

/* A handle of the proved library: of a heap, or of a session. One of static storage begins as ZELAMIKU_NONE by itself. */
typedef struct {
    void *at;
    bool is_open;
} zelamiku_handle;
#ifdef __cplusplus
#define ZELAMIKU_NONE (zelamiku_handle{nullptr, false})
#else
#define ZELAMIKU_NONE ((zelamiku_handle){NULL, false})
#endif

#define ZELAMIKU_MOST_BYTES 4096 /* of a write */
enum { ZELAMIKU_NO_CALL = 0, ZELAMIKU_WRITE = 1, ZELAMIKU_SYNC = 2 };

/* A call of the device. */
typedef struct {
    uint32_t kind;
    uint64_t at;   /* where to write, in bytes from the device's start */
    uint64_t size; /* how many bytes */
} zelamiku_call;

/* ---- the heap ---- */

/* Each call of a heap, except those that open it, also returns NOTHING, WRONG_KIND, and STOPPED after zelamiku_call_failed has reported a sync;
 * nothing was done then. */

/* What an image has. */
typedef struct {
    uint64_t size;       /* its bytes */
    uint64_t zeros_from; /* where there is none: a device that is free has zeros from this byte on */
    uint32_t objects, fields, lanes;
    uint32_t capacity;   /* the records that a lane's area holds */
    uint32_t is_damaged; /* 1: there is none, and there may have been one: the device isn't free */
} zelamiku_shape;

/* What a heap has, and what recovery found. */
typedef struct {
    uint64_t size; /* the bytes of the image */
    uint32_t objects, fields, lanes;
    uint32_t capacity; /* the records that a lane's area holds */
    uint32_t threads;  /* the lanes that threads have: all of them, or all but the last one */
    uint64_t dropped;  /* the sections that recovery dropped; none of them was acknowledged */
    uint64_t undone;   /* the fields that recovery has set back to an old value */
} zelamiku_found;

/* What recovery found, lane by lane. After a refusal: which record caused it. */
typedef struct {
    zelamiku_found found;
    uint64_t kept[ZELAMIKU_MOST_LANES]; /* how many sections of each lane were kept, since the opening before */
    uint64_t bad_place; /* after BAD_RECORD and ILLEGAL_LOG: the record's place in its lane */
    uint32_t bad_lane;  /* and the lane; else ZELAMIKU_NOBODY */
} zelamiku_told;

/* A section that recovery dropped: zelamiku_dropped's numbers. */
typedef struct {
    uint64_t section, other_section;
    uint32_t lane, why, other_lane;
} zelamiku_dropped_section;

/* How many of a device's bytes zelamiku_head reads. */
#define ZELAMIKU_HEAD_BYTES 2160

/* Finds out which image a device has, by its first ZELAMIKU_HEAD_BYTES bytes; if the device is shorter, by all of them and zeros.
 * OK: they are the header of an image of that shape. zelamiku_open checks the rest, and its size.
 * NOT_FORMATTED: they are no header. If `is_damaged` is 0 a heap may be made there, provided the device has only zeros from `zeros_from` on.
 * That is 0; if a making in place was cut off before its last gate, it is where the lanes' areas begin. BAD_HEADER: a number of the header is
 * out of its limits. TOO_SMALL: fewer bytes are given. All other numbers are 0 then. */
ZELAMIKU_MUST_USE zelamiku_status zelamiku_head(const uint8_t *begun, size_t size, zelamiku_shape *shape);

/* Makes a heap of so many objects and of these fields, with `lanes` (1 to 32) lanes of `capacity` (2,000 to 1,048,576) records each, and opens
 * it. `size` gets the bytes of its image.
 * `threads` is how many threads the caller has. If the image has more lanes than that, and at least two, its last lane is the helper's: no
 * session has it, and a round has two syncs. Otherwise each lane has a session, and a round has four. No number of threads is refused.
 * A session's records go through its lane's ring, from which a round takes them. A ring holds `ring` (4,096 to 65,536) records of 24 bytes: a
 * larger one lets the session go on for longer while the host makes a round's calls, up to the lane's capacity. The image records neither whose
 * its lanes are nor the ring: each opening chooses both anew.
 * Needs: before the first call of zelamiku_next_call is made, the device has `size` zero bytes, durably. If it may have an image, make that
 * one's gate zero first, alone and durably (docs/FORMAT.md): an old header over zeros would be a heap of zeros.
 * RING, before any other status: `ring` is out of its limits. OPEN, EMPTY, UNKNOWN_OBJECT, TOO_MANY, BAD_HEADER, NO_MEMORY, FAULT (want of
 * memory too). The handle is as it was, and `size` is 0. */
ZELAMIKU_MUST_USE zelamiku_status zelamiku_format(zelamiku_handle *heap, uint32_t objects, const zelamiku_field *fields, size_t count,
                                                  uint32_t lanes, uint32_t capacity, uint32_t threads, uint32_t ring, uint64_t *size);

/* Recovers the heap of these bytes, and opens it, with threads and rings as zelamiku_format. `told` gets what it has and how many sections were
 * kept, of the helper's lane too; `told->found.threads` gets how many of its lanes have a session, from lane 0 on. `dropped` gets the first
 * `count` sections that weren't kept, by lane and then by number; `told->found.dropped` is how many there are.
 * Needs: the device has these bytes, all of them, durably.
 * RING, before any other status; OPEN, NOT_FORMATTED, BAD_HEADER, TOO_SMALL, NO_CONTROL, BAD_CONTROL, OLD_VERSION, WORN, BAD_RECORD,
 * ILLEGAL_LOG, NO_MEMORY, FAULT (want of memory too): the handle is as it was. If one record is the cause, `told` says which; otherwise it is
 * empty, and so is `dropped`. The device has no pending call.
 * OLD_VERSION: an older library made the heap, and zelamiku_upgrade opens it. */
ZELAMIKU_MUST_USE zelamiku_status zelamiku_open(zelamiku_handle *heap, const uint8_t *image, size_t size, uint32_t threads, uint32_t ring,
                                                zelamiku_told *told, zelamiku_dropped_section *dropped, size_t count);

/* Opens the heap of these bytes as zelamiku_open does, and also an image of version 1, from before there were transient fields. The calls of its
 * recovery, which zelamiku_next_call returns first, give the image version 2, in place, with the same heap. A crash while the host makes them
 * leaves that heap too: call zelamiku_upgrade again, which accepts both versions. The image has version 1 until the last gate is written, either
 * version until the sync after that returns, and then version 2.
 * An older library can't open version 2. So call this if the user has asked for it, or after copying the image; otherwise call zelamiku_open.
 * Returns what zelamiku_open does, except OLD_VERSION. */
ZELAMIKU_MUST_USE zelamiku_status zelamiku_upgrade(zelamiku_handle *heap, const uint8_t *image, size_t size, uint32_t threads, uint32_t ring,
                                                   zelamiku_told *told, zelamiku_dropped_section *dropped, size_t count);

/* zelamiku_open or zelamiku_upgrade. */
typedef zelamiku_status zelamiku_opening(zelamiku_handle *heap, const uint8_t *image, size_t size, uint32_t threads, uint32_t ring,
                                         zelamiku_told *told, zelamiku_dropped_section *dropped, size_t count);

/* Returns the shape of a heap's image, and its fields: the first `count` of them, as its image has them, and zeros past the last one. CLOSED.
 * `shape` is all 0 then, and `fields` as it was. */
ZELAMIKU_MUST_USE zelamiku_status zelamiku_fields(zelamiku_handle *heap, zelamiku_shape *shape, zelamiku_field *fields, size_t count);

/* Hands out the session of the next lane, from 0 on. Once all were handed out: that of any lane whose session has ended (zelamiku_end) while it
 * held no monitor, so threads may come and go. zelamiku_lane returns which lane it has.
 * OPEN: `session` is open already. NONE_LEFT: each lane but the helper's has a session. CLOSED. NO_MEMORY: none was handed out, and it may be
 * requested again. The handles are as they were. */
ZELAMIKU_MUST_USE zelamiku_status zelamiku_session(zelamiku_handle *heap, zelamiku_handle *session);

/* Returns the call of the device that the host makes next, and copies its bytes. It returns the same call until zelamiku_call_done. `call->kind`
 * is ZELAMIKU_NO_CALL if none is pending; another round may add more. If the buffer has fewer bytes than the call, which one of
 * ZELAMIKU_MOST_BYTES never has, only the first of them are copied, though `call` describes all of it: the host may look at such a call, and
 * can't make it.
 * After a refusal `call` is ZELAMIKU_NO_CALL. */
ZELAMIKU_MUST_USE zelamiku_status zelamiku_next_call(zelamiku_handle *heap, zelamiku_call *call, uint8_t *bytes, size_t size);

/* Confirms that the host has made the call that zelamiku_next_call returned, the first pending one. The library can't check it: confirm each
 * call once, and only after it was returned and made.
 * NONE_LEFT: no call is pending that the library has taken, up to a sync, by zelamiku_next_call or zelamiku_acknowledged; nothing was done. */
ZELAMIKU_MUST_USE zelamiku_status zelamiku_call_done(zelamiku_handle *heap);

/* Reports that the host couldn't make the call that zelamiku_next_call returned.
 * OK: it was a write, and nothing has changed: the same call is returned again, and may be made again.
 * STOPPED: it was a sync, or one had failed before. The heap's memory is freed, and nothing that the sessions do from now on becomes durable;
 * what was acknowledged before stays. Free the handles.
 * NONE_LEFT: no call was returned. */
ZELAMIKU_MUST_USE zelamiku_status zelamiku_call_failed(zelamiku_handle *heap);

/* How many groups of calls the heap has handed over that zelamiku_next_call hasn't taken yet, also one that was closed. A group is the calls up to a
 * sync. After a refusal `count` is 0. */
ZELAMIKU_MUST_USE zelamiku_status zelamiku_waiting(zelamiku_handle *heap, uint32_t *count);

#define ZELAMIKU_ALL UINT64_MAX /* no bound on a round */

/* Takes what the sessions have done, at most `most` records of it, and writes it to the log. Acknowledges each section that has ended and
 * depends on none that hasn't. zelamiku_next_call then returns the calls for that: make them after each round, or in a thread that orders its
 * calls with this one. `applied` gets how many records were taken. With none there is no call.
 * A round that has taken `most` may have left some: make another one, even if nothing comes meanwhile. A session that waits for its section is
 * delayed until all rounds are over that take what its section depends on: if threads wait beside others that send much, choose a bound that
 * takes about as long as the calls of a round. The lanes have equal parts of it. ZELAMIKU_ALL is no bound.
 * After each refusal `applied` is 0. CLOSED: nothing was done. CALLS_LEFT: the host hasn't made the calls of so many rounds that those of one
 * more might have no room; nothing was done: make them, and go on. FAULT, FAILED: the heap has stopped; what was acknowledged stays: free the
 * handles, and open it again. WORN: the control's sequence has reached its limit. The heap hasn't stopped, but from now on no round that has to
 * write acknowledges anything; what was acknowledged stays. */
ZELAMIKU_MUST_USE zelamiku_status zelamiku_round(zelamiku_handle *heap, uint64_t most, uint64_t *applied);

/* How many sections of the lane are acknowledged since the heap was opened: no crash of the device loses them.
 * CLOSED. BAD_LANE: no session has that lane: it is past the last one, or the helper's. CALLS_LEFT: make the pending calls, and ask again.
 * `sections` is 0 then. */
ZELAMIKU_MUST_USE zelamiku_status zelamiku_acknowledged(zelamiku_handle *heap, uint32_t lane, uint64_t *sections);

/* Copies bytes of the heap's image, from byte `at` on, into `bytes`: as many as there are and `size` has room for. `copied` gets how many; it is
 * 0 if `at` is at the image's end or past it. After the copied bytes `bytes` stays as it was. The image is that of the heap's disk in memory:
 * what the device holds once the host has made all pending calls. So it may be ahead of the device, and never behind it. Nothing else changes:
 * it neither makes nor adds a call, and a heap that stopped by FAULT, FAILED or WORN, or was closed, has its image too.
 * Needs: between the first and the last piece of a copy, no zelamiku_round and no zelamiku_close of this heap. Sessions may go on meanwhile, and
 * so may zelamiku_next_call and zelamiku_call_done.
 *     for (uint64_t at = 0; zelamiku_copy(&heap, at, buffer, sizeof buffer, &copied) == ZELAMIKU_OK && copied > 0; at += copied)
 *         if (pwrite(file, buffer, copied, (off_t)at) != (ssize_t)copied) ...
 * A whole copy, once it is durable in a file of its own, is a heap that zelamiku_open accepts: as if this one had crashed just then, with
 * nothing in flight. It keeps each section that was acknowledged by then, also by zelamiku_round_sections; after zelamiku_close has returned OK
 * it keeps all sections.
 * After a refusal `copied` is 0, and `bytes` is as it was. */
ZELAMIKU_MUST_USE zelamiku_status zelamiku_copy(zelamiku_handle *heap, uint64_t at, uint8_t *bytes, size_t size, uint64_t *copied);

/* Closes the heap, once each session that was handed out has ended: the last round. Make the pending calls, and then free it.
 * RUNNING: a session that was handed out hasn't ended, or each has and another thread is still inside zelamiku_end; the heap goes on. In the
 * second case the lanes that were never handed out have ended too: zelamiku_session then hands out none of them anew but goes on with their
 * sessions. CALLS_LEFT: the calls of the last round might have no room: make the pending ones, and close it then; the heap goes on. UNFINISHED,
 * NO_MEMORY, FAULT, FAILED, WORN: the heap is closed without its last round, or with a part of it. What was acknowledged stays: make the pending
 * calls, free the handle, and open the heap again. UNFINISHED and NO_MEMORY leave no pending call. WORN: the control's sequence has reached its
 * limit, and zelamiku_open returns WORN too. CLOSED, by an earlier call: nothing was done. */
ZELAMIKU_MUST_USE zelamiku_status zelamiku_close(zelamiku_handle *heap);

/* Frees what a handle holds, and resets the handle to ZELAMIKU_NONE. A heap stops, as if the process had: what was acknowledged stays. A session
 * that is freed never ends, so its heap can't be closed any more (RUNNING). What it holds stays held: others that want those monitors get HELD
 * as long as the heap is open. Sections that depend on its last one are never acknowledged, and their sessions end up BEHIND. zelamiku_look
 * returns the lane that holds an object. If that lane's thread is gone, free the handles and open the heap again. The section that was cut off
 * is dropped then, with those that depend on it. A thread that may be killed, or exit in a section, costs its heap an opening. */
void zelamiku_free(zelamiku_handle *handle);

/* ---- a journal, for a device that keeps each sector of 512 bytes whole ----
 *
 * It lies between a heap and the device: the heap's writes and syncs go to the journal, which works in memory, and the host makes the journal's own
 * calls on the device. zelamiku_next_call, zelamiku_call_done and zelamiku_free take a journal's handle too; zelamiku_call_failed doesn't. Each call
 * of a journal also returns NOTHING and WRONG_KIND. docs/FORMAT.md, "A journal in two halves", says what the device holds then. */

/* Opens the journal of a device that begins with these bytes: all that its label counts, durably. `image_size` gets the bytes of its image.
 * OPEN; NOT_FORMATTED: there is no label. TOO_SMALL: the label counts more bytes, or halves of no page. WORN_JOURNAL, NO_MEMORY, FAULT (want of
 * memory too). The handle is as it was, and `image_size` is 0. */
ZELAMIKU_MUST_USE zelamiku_status zelamiku_journal_open(zelamiku_handle *journal, const uint8_t *bytes, size_t size, uint64_t *image_size);

/* Makes a journal with halves of so many pages of 4,096 bytes, and an image of so many, which are zeros. OPEN, NO_MEMORY, FAULT (want of memory too);
 * TOO_SMALL: a half has no page. The handle is as it was. */
ZELAMIKU_MUST_USE zelamiku_status zelamiku_journal_create(zelamiku_handle *journal, uint32_t half, uint32_t image);

/* Reads bytes of the image, as they were at the last order or sync. If one has failed since, they may have some of the writes that it was to take.
 * TOO_SMALL: they don't all lie in it; `bytes` is as it was. */
ZELAMIKU_MUST_USE zelamiku_status zelamiku_journal_read(zelamiku_handle *journal, uint64_t at, uint8_t *bytes, size_t size);

/* Writes bytes of the image. TOO_SMALL: they don't all lie in it. FAULT: there is no memory for them. Nothing was written then. */
ZELAMIKU_MUST_USE zelamiku_status zelamiku_journal_write(zelamiku_handle *journal, uint64_t at, const uint8_t *bytes, size_t size);

/* A sync of the heap's behind which more of its calls wait: nothing that is written later becomes durable before what was written until now. Calls
 * are handed over only if a batch has no room for it all. FAULT: there is no memory; or there was none in an earlier sync, which can't succeed now. */
ZELAMIKU_MUST_USE zelamiku_status zelamiku_journal_order(zelamiku_handle *journal);

/* A sync of the heap's: hands over the calls that make all that was written durable, with one sync if it fits into a batch. None, if nothing was
 * written since the last one. FAULT, as an order. */
ZELAMIKU_MUST_USE zelamiku_status zelamiku_journal_sync(zelamiku_handle *journal);

/* ---- a session: one thread's use of the heap ---- */

/* Each call of a session also returns NOTHING, WRONG_KIND and WAITING; nothing was done then. try_enter, begin_wait and try_resume return
 * STOPPED once the heap has stopped by zelamiku_call_failed, so no retry loop spins for ever: what is held and what waits stays as it was. The
 * others go on, to let a section end, though nothing of it will be durable. */

/* Locks the object's monitor, or locks it once more. The first enter of a section needs room for a whole section.
 * UNKNOWN_OBJECT, BEHIND, SECTION_FULL, TOO_MANY, TOO_DEEP, NO_FAT, WORN, HELD: what is held stays as it was. */
ZELAMIKU_MUST_USE zelamiku_status zelamiku_try_enter(zelamiku_handle *session, uint32_t object);

/* Unlocks the monitor once. The last unlock frees it, and the section ends when its last monitor is free.
 * UNKNOWN_OBJECT, NOT_HELD: nothing was done. */
ZELAMIKU_MUST_USE zelamiku_status zelamiku_exit(zelamiku_handle *session, uint32_t object);

/* Loads a field whose guard is held.
 * UNKNOWN_FIELD, NOT_HELD: `value` is 0. */
ZELAMIKU_MUST_USE zelamiku_status zelamiku_load(zelamiku_handle *session, uint32_t field, uint64_t *value);

/* Stores a field whose guard is held.
 * UNKNOWN_FIELD, NOT_HELD, SECTION_FULL: nothing was stored. */
ZELAMIKU_MUST_USE zelamiku_status zelamiku_store(zelamiku_handle *session, uint32_t field, uint64_t value);

/* Joins the wait set of a monitor that is held, and frees it, with all its locks. Resume it then.
 * UNKNOWN_OBJECT, NOT_HELD, BEHIND, SECTION_FULL, NO_FAT, WORN: the monitor is held as before. */
ZELAMIKU_MUST_USE zelamiku_status zelamiku_begin_wait(zelamiku_handle *session, uint32_t object);

/* Takes the monitor again, by as many locks as before, if the session was notified and the monitor is free.
 * IN_SET: nobody has notified it. HELD: another session has the monitor, or had it when this one tried; or the monitor has its last
 * number, 2^40 - 1, and can't be taken again. It waits on. WRONG_KIND: the session doesn't wait. */
ZELAMIKU_MUST_USE zelamiku_status zelamiku_try_resume(zelamiku_handle *session);

/* Takes one session out of the wait set of a monitor that is held; `lane` gets its lane, or ZELAMIKU_NOBODY.
 * UNKNOWN_OBJECT, NOT_HELD: `lane` is ZELAMIKU_NOBODY. */
ZELAMIKU_MUST_USE zelamiku_status zelamiku_notify(zelamiku_handle *session, uint32_t object, uint32_t *lane);

/* Takes all sessions out of the wait set of a monitor that is held; `lanes` gets a bit for each, 1 << its lane.
 * UNKNOWN_OBJECT, NOT_HELD: `lanes` is 0. */
ZELAMIKU_MUST_USE zelamiku_status zelamiku_notify_all(zelamiku_handle *session, uint32_t object, uint64_t *lanes);

/* Looks at a monitor, which needn't be held. UNKNOWN_OBJECT: `sight` describes a free monitor. */
ZELAMIKU_MUST_USE zelamiku_status zelamiku_look(zelamiku_handle *session, uint32_t object, zelamiku_sight *sight);

/* How many sections of the session's lane the last round acknowledged. They are durable once the host has made that round's calls: from then on
 * no crash loses them, even if the heap is never closed. zelamiku_acknowledged counts only such sections. */
ZELAMIKU_MUST_USE zelamiku_status zelamiku_round_sections(zelamiku_handle *session, uint64_t *sections);

/* Returns the session's lane, and how many sections of it have ended since the heap was opened, also those of the sessions that had the lane
 * before. What the session has done by then is durable once zelamiku_acknowledged returns as many for that lane.
 * After a refusal `lane` is ZELAMIKU_NOBODY and `sections` 0. */
ZELAMIKU_MUST_USE zelamiku_status zelamiku_lane(zelamiku_handle *session, uint32_t *lane, uint64_t *sections);

/* ---- a pool, by a session (zelamiku.h has what a pool is, and zelamiku_pool_fields) ---- */

/* Takes a free slot of the pool with this head and this number of slots. Its object's monitor must be held; the call makes two records.
 * POOL_EMPTY, DAMAGED, UNKNOWN_FIELD, NOT_HELD, SECTION_FULL: nothing was stored, and `slot` is ZELAMIKU_NO_NUMBER. */
ZELAMIKU_MUST_USE zelamiku_status zelamiku_pool_take(zelamiku_handle *session, uint32_t head, uint32_t slots, uint32_t *slot);

/* Releases a slot that was taken: it is the next one to be taken. Its object's monitor must be held; the call makes two records.
 * NOT_TAKEN, DAMAGED, UNKNOWN_FIELD, NOT_HELD, SECTION_FULL: nothing was stored. */
ZELAMIKU_MUST_USE zelamiku_status zelamiku_pool_give(zelamiku_handle *session, uint32_t head, uint32_t slots, uint32_t slot);

/* ---- the end of a session ---- */

/* Ends the session, and returns it to its heap, which may hand out its lane again. Exit all monitors first: otherwise it isn't returned, and its
 * heap can't be closed. The handle keeps 6 kB, and its lane's ring if the heap goes first, until it is opened again or freed: so free it, or
 * pass it to zelamiku_session. Until then each call of a session returns NOTHING for it, and each call of a heap WRONG_KIND.
 * WAITING, WRONG_KIND: the handle is as it was. */
ZELAMIKU_MUST_USE zelamiku_status zelamiku_end(zelamiku_handle *session);

#ifdef ZELAMIKU_HAS_SIZE
ZELAMIKU_HAS_SIZE(zelamiku_handle, 16);
ZELAMIKU_HAS_SIZE(zelamiku_found, 48);
ZELAMIKU_HAS_SIZE(zelamiku_told, 320);
ZELAMIKU_HAS_SIZE(zelamiku_dropped_section, 32);
ZELAMIKU_HAS_SIZE(zelamiku_call, 24);
ZELAMIKU_HAS_SIZE(zelamiku_shape, 40);
#endif

#ifdef __cplusplus
}
#endif
#endif
