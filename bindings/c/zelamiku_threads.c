/* The scheduler of zelamiku.h, and the heap's file. It is compiled once, into libzelamiku.a and libzelamiku.so.1, over the proved
 * library. tools/search runs it under schedules by seeds (bindings/c/search).
 *
 * What a thread sleeps on:
 *  - a thread that wants a monitor, was notified, or has no room: the bell of its seat. A wake wakes that thread alone;
 *  - all threads that wait for a round: `round_bell` of the heap, a word that changes after each round;
 *  - the helper: `helper_bell` of the heap, until its next check is due;
 *  - a thread with an event loop: its own loop, by the event of its seat, a descriptor (src/event.c).
 * One thread at a time makes a round (src/round.c has the rules).
 *
 * Two mutexes: the registry's, one for all heaps, guards the places of heaps and every descriptor that a fork has to close; a heap's guards what
 * its threads share. A thread that locks both locks the heap's first. No call of a device, log hook or allocation is made under either, and no
 * file is opened: each may hang. Members that are _Atomic are read and written sequentially consistently, unless the code says otherwise. Other
 * members say who uses them: "mutex" means under the heap's mutex, "registry" under the registry's, "leader" by the leader, "own" by the thread
 * that has the lane. */

/* The rooms, compiled as one unit, so that calls between them are inlined. */
#include "src/internal.h"
#include "src/status.c"
#include "src/park.c"
#include "src/slice.c"
#include "src/file.c"
#include "src/device.c"
#include "src/journal.c"
#include "src/round.c"
#include "src/handle.c"
#include "src/beside.c"
#include "src/revert.c"
#include "src/life.c"
#include "src/open.c"
#include "src/waits.c"
#include "src/thread.c"
#include "src/event.c"
