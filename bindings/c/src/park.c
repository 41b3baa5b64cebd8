/* How a thread sleeps and is woken: the clock, futexes, bells, and monitors that are waited for.
 *
 * A bell is an atomic word, of a seat or of a heap; no lock guards it. The heap's mutex guards who wants which monitor (`wanted`, `turn`), and
 * why a round is wanted (`urgent`). How many wait for a monitor is atomic (`waiting`), since each exit reads it. */
/* ---- sleeping and waking ---- */

uint64_t zelamiku_now(void) {
    struct timespec now = {0, 0};
    (void)clock_gettime(CLOCK_MONOTONIC, &now);
    return (uint64_t)now.tv_sec * SECOND + (uint64_t)now.tv_nsec;
}

static uint64_t after(uint64_t nanoseconds) {
    uint64_t now = zelamiku_now();
    return nanoseconds < ZELAMIKU_NO_DEADLINE - now ? now + nanoseconds : ZELAMIKU_NO_DEADLINE - 1;
}

static void nap(uint64_t nanoseconds) {
    struct timespec time = {(time_t)(nanoseconds / SECOND), (long)(nanoseconds % SECOND)};
    (void)nanosleep(&time, NULL);
}

/* Sleeps while the word is as it was seen, until a wake or the deadline; false after the deadline. It may wake for nothing. */
static bool sleep_on(_Atomic uint32_t *word, uint32_t seen, uint64_t deadline) {
    struct timespec due = {(time_t)(deadline / SECOND), (long)(deadline % SECOND)};
    bool has_due = deadline != ZELAMIKU_NO_DEADLINE;
    long answer = syscall(SYS_futex, word, FUTEX_WAIT_BITSET_PRIVATE, seen, has_due ? &due : NULL, NULL, FUTEX_BITSET_MATCH_ANY);
    return answer == 0 || errno != ETIMEDOUT;
}

static void wake(_Atomic uint32_t *word, int count) {
    (void)syscall(SYS_futex, word, FUTEX_WAKE_PRIVATE, count, NULL, NULL, 0);
}

/* Sleeps until somebody rings, or has rung since the last sleep; false if the deadline comes first. The caller checks what it waits for. */
static bool sleep_seat(seat *own, uint64_t deadline) {
    while (atomic_exchange(&own->bell, 0) == 0)
        if (!sleep_on(&own->bell, 0, deadline)) return atomic_exchange(&own->bell, 0) != 0;
    return true;
}

static void ring_seat(seat *other) {
    if (atomic_exchange(&other->bell, 1) == 0) wake(&other->bell, 1);
}

/* Under the mutex. */
static void ring_helper(heap *heap) {
    assert(holds(&heap->mutex));
    heap->helper_bell++;
    wake(&heap->helper_bell, 1);
}

/* Wakes all that wait for a round. */
static void tell_all(heap *heap) {
    heap->round_bell++;
    wake(&heap->round_bell, INT_MAX);
}

/* Under the mutex: requests a round now. If one is requested already and hasn't begun, it is that one. A leader checks for requests when it
 * finishes. */
static void ask(heap *heap, uint32_t cause) {
    assert(holds(&heap->mutex));
    if (heap->urgent == 0 && !heap->is_led) ring_helper(heap);
    heap->urgent = cause;
}

static void demand(heap *heap, uint32_t cause) {
    lock(&heap->mutex);
    ask(heap, cause);
    unlock(&heap->mutex);
}

/* ---- log hooks in progress ---- */

/* Under the mutex, while the heap goes on or the thread leads: it is about to call the log hook. The thread that ends the heap waits for it. */
static void begin_hook(heap *heap) {
    assert(holds(&heap->mutex));
    heap->hooks_underway++;
}

static void end_hook(heap *heap) {
    assert(heap->hooks_underway > 0);
    heap->hooks_underway--;
    wake(&heap->hooks_underway, INT_MAX);
}

static void await_hooks(heap *heap) {
    for (uint32_t seen; (seen = heap->hooks_underway) > 0;) (void)sleep_on(&heap->hooks_underway, seen, ZELAMIKU_NO_DEADLINE);
}

/* ---- monitors that are waited for ---- */

/* Wakes the thread that waits longest for the object's monitor. It stays listed until it has the monitor, so it may be woken twice, and another
 * one not at all: the next owner of the monitor then wakes that one. */
COLD void wake_first(heap *heap, uint32_t object) {
    seat *first = NULL;
    lock(&heap->mutex);
    for (uint32_t lane = 0; lane < heap->lanes; lane++) {
        seat *other = seat_at(heap, lane);
        if (other->wanted == object + 1 && (first == NULL || other->turn < first->turn)) first = other;
    }
    unlock(&heap->mutex);
    if (first != NULL) ring_seat(first);
}

/* Lists the lane as waiting for the object's monitor; returns whether it wasn't listed before. The caller tries again afterwards: a thread that
 * frees the monitor after that try finds the lane here. */
static bool want(heap *heap, seat *own, uint32_t object) {
    lock(&heap->mutex);
    bool is_new = own->wanted == 0;
    if (is_new) {
        own->wanted = object + 1;
        own->turn = ++heap->turns;
        heap->waiting[object % BUCKETS]++;
    }
    unlock(&heap->mutex);
    return is_new;
}

/* The lane waits for no monitor any more. If it hasn't taken the monitor, it passes its wake-up on. */
static void want_no_more(heap *heap, seat *own, bool has_taken) {
    lock(&heap->mutex);
    uint32_t wanted = own->wanted;
    own->wanted = 0;
    own->is_logged = false;
    assert(wanted == 0 || heap->waiting[(wanted - 1) % BUCKETS] > 0);
    if (wanted != 0) heap->waiting[(wanted - 1) % BUCKETS]--;
    unlock(&heap->mutex);
    if (wanted != 0 && !has_taken) wake_first(heap, wanted - 1);
}

/* How many locks of the monitor the lane has. */
static uint32_t locks_of(seat *own, uint32_t object) {
    zelamiku_sight sight = {ZELAMIKU_NOBODY, 0, 0};
    bool is_ours = zelamiku_look(&own->session, object, &sight) == ZELAMIKU_OK && sight.owner == own->lane;
    return is_ours ? sight.locks : 0;
}

/* Whether the lane has sent enough for a round. It counts records, but durability is known by sections: it takes the same part of the records to
 * be durable as of the sections, which is about right. */
static bool has_enough(const heap *heap, seat *own) {
    uint64_t ended = own->ended, durable = own->acknowledged;
    assert(durable <= ended && own->counted <= ended);
    if (durable > own->counted) {
        own->records = (uint32_t)(own->records * (ended - durable) / (ended - own->counted));
        own->counted = durable;
    }
    return own->records >= heap->enough;
}

/* A section has ended that the helper may not know of. While the helper's check is due within the linger, nobody has to wake it. */
COLD void tell_of_work(heap *heap, seat *own) {
    if (own->records >= heap->enough && has_enough(heap, own)) {
        own->records = 0;
        own->counted = own->ended;
        heap->has_work = 1;
        demand(heap, ZELAMIKU_ROUND_FULL);
    } else if (atomic_exchange(&heap->has_work, 1) == 0 && (heap->awaiting > 0 || !heap->has_timer)) {
        lock(&heap->mutex);
        ring_helper(heap);
        unlock(&heap->mutex);
    }
}

/* Some locks of a monitor were released. If they were the thread's last, its section has ended. The loads here and the stores before are
 * sequentially consistent, and so is the library's step that has freed the monitor. So a thread that waits for the monitor was listed before, or
 * finds it free. The leader learns of the section by its count, which it reads after it has cleared `has_work`, or by `has_work`. */
COLD void tell_and_wake(seat *own, uint32_t object, bool waits) {
    heap *heap = own->heap;
    bool is_end = own->locks == 0;
    count_call(heap); /* before it isn't busy */
    if (is_end && own->is_busy) {
        if (heap->has_work == 0 || own->records >= heap->enough) tell_of_work(heap, own);
        if (!waits) atomic_store_explicit(&own->is_busy, 0, memory_order_release);
    }
    /* Somebody waits: wakes the first, unless another lock of the monitor is left. */
    if (heap->waiting[object % BUCKETS] > 0 && (is_end || locks_of(own, object) == 0)) wake_first(heap, object);
    end_call(heap);
}
