/* Who waits for whom: threads that sleep for monitors, and circles of threads that wait for each other. The heap's mutex guards all of it.
 *
 * Under the mutex what a lane wants doesn't change, and a thread whose lane wants something is inside an enter or a wait, so it frees no
 * monitor. So a circle that is found here exists at that moment, though its owners were read one after another. The thread that closes a circle
 * begins to sleep in an enter: one in a wait set was listed by the owner of the monitor that it wants, which was running then. So one of a
 * circle's threads finds it, once that thread has slept for a second. */
/* ---- who waits for whom ---- */

/* Whose use a session has. While its thread sleeps for a monitor, others may borrow it to look at monitors. */
enum { IN_USE = 0, RESTS = 1, IS_BORROWED = 2 };

/* Sleeps as sleep_seat does; meanwhile others may borrow its session. */
static bool rest_seat(seat *own, uint64_t deadline) {
    own->session_use = RESTS;
    bool is_early = sleep_seat(own, deadline);
    for (uint32_t resting = RESTS; !atomic_compare_exchange_strong(&own->session_use, &resting, IN_USE); resting = RESTS) (void)sched_yield();
    return is_early;
}

static bool is_borrowed(seat *other) {
    uint32_t resting = RESTS;
    return atomic_compare_exchange_strong(&other->session_use, &resting, IS_BORROWED);
}

/* For a lane that is lent: whether nothing of it is open. If so, its thread can't begin anything without the mutex. */
static bool is_shut(seat *other) {
    other->number = 0;
    if (!other->is_busy) return true;
    other->number = other->lent_number;
    return false;
}

/* Under the mutex, while the heap goes on: a seat whose session the caller may use to look, until return_seat: of a lane that isn't lent, that
 * sleeps for a monitor, or that has nothing open. NULL: all are in sections. */
static seat *borrow_seat(heap *heap) {
    assert(holds(&heap->mutex));
    for (uint32_t lane = 0; lane < heap->lanes; lane++)
        if (!seat_at(heap, lane)->is_lent || is_borrowed(seat_at(heap, lane))) return seat_at(heap, lane);
    for (uint32_t lane = 0; lane < heap->lanes; lane++)
        if (is_shut(seat_at(heap, lane))) return seat_at(heap, lane);
    return NULL;
}

static void return_seat(seat *other) {
    if (other->session_use == IS_BORROWED)
        other->session_use = RESTS;
    else if (other->is_lent)
        other->number = other->lent_number;
}

/* Under the mutex: for each lane that wants a monitor, the lane that has it, by a session that nobody else uses. NOBODY for all other lanes, and
 * if there is no session. */
static void find_owners(heap *heap, seat *by, uint32_t *owners) {
    assert(holds(&heap->mutex));
    for (uint32_t lane = 0; lane < heap->lanes; lane++) {
        uint32_t wanted = seat_at(heap, lane)->wanted;
        zelamiku_sight sight = {ZELAMIKU_NOBODY, 0, 0};
        bool is_told = wanted != 0 && by != NULL && zelamiku_look(&by->session, wanted - 1, &sight) == ZELAMIKU_OK;
        owners[lane] = is_told ? sight.owner : ZELAMIKU_NOBODY;
    }
}

/* The lanes of the circle that this lane is in, a bit for each; 0: it is in none. */
static uint64_t circle_of(const heap *heap, const uint32_t *owners, uint32_t lane) {
    uint64_t circle = 0;
    for (uint32_t at = lane; at < heap->lanes && (circle >> at & 1) == 0; at = owners[at]) {
        circle |= (uint64_t)1 << at;
        if (owners[at] == lane && at != lane) return circle;
    }
    return 0;
}

/* Under the mutex: writes who waits for whom, from that lane on. */
static void spell_circle(heap *heap, const uint32_t *owners, uint32_t lane, char *text, size_t size) {
    assert(holds(&heap->mutex));
    uint32_t at = lane;
    size_t begun = 0;
    do {
        assert(at < heap->lanes && seat_at(heap, at)->wanted != 0); /* each of a circle wants a monitor that the next one has */
        int more = snprintf(text + begun, size - begun, "%slane %u for object %u of lane %u", begun > 0 ? ", " : "", at,
                            seat_at(heap, at)->wanted - 1, owners[at]);
        begun += more > 0 ? (size_t)more : 0;
        at = owners[at];
    } while (at != lane && begun < size);
}

/* Whether the circle has a thread that no earlier report had in a circle. */
static bool is_untold(heap *heap, uint64_t circle) {
    bool is = false;
    for (uint32_t lane = 0; lane < heap->lanes; lane++)
        if (circle >> lane & 1) {
            is |= !seat_at(heap, lane)->is_logged;
            seat_at(heap, lane)->is_logged = true;
        }
    return is;
}

/* The thread has slept for a monitor for a second: if it is in a circle, reports that to the log hook, once. */
COLD void tell_circle(heap *heap, seat *own) {
    uint32_t owners[ZELAMIKU_MOST_LANES];
    char text[480] = "";
    lock(&heap->mutex);
    if (heap->end_status == 0) {
        find_owners(heap, own, owners);
        uint64_t circle = circle_of(heap, owners, own->lane);
        if (circle != 0 && is_untold(heap, circle)) spell_circle(heap, owners, own->lane, text, sizeof text);
    }
    if (text[0] != 0) begin_hook(heap);
    unlock(&heap->mutex);
    if (text[0] == 0) return;
    tell_log(heap, ZELAMIKU_LOG_WARNING, "threads wait for each other's monitors, and none goes on: %s", text);
    end_hook(heap);
}

/* Sleeps for a monitor until somebody rings, or until the deadline: false after it. At `look` it checks for a circle, once. */
static bool sleep_for_monitor(heap *heap, seat *own, uint64_t *look, uint64_t deadline) {
    if (*look >= deadline) return rest_seat(own, deadline);
    if (rest_seat(own, *look)) return true;
    *look = ZELAMIKU_NO_DEADLINE;
    tell_circle(heap, own);
    return true;
}

static size_t list_waits(heap *heap, const uint32_t *owners, zelamiku_wait *waits, size_t count) {
    size_t written = 0;
    for (uint32_t lane = 0; lane < heap->lanes && written < count; lane++) {
        uint32_t wanted = seat_at(heap, lane)->wanted;
        if (wanted == 0 || owners[lane] == lane) continue; /* it has just taken it */
        assert(wanted <= heap->objects);
        zelamiku_wait wait = {lane, wanted - 1, owners[lane], circle_of(heap, owners, lane) != 0};
        waits[written++] = wait;
    }
    return written;
}

static zelamiku_status waits_of(heap *heap, zelamiku_wait *waits, size_t count, size_t *written) {
    uint32_t owners[ZELAMIKU_MOST_LANES];
    lock(&heap->mutex);
    zelamiku_status status = (zelamiku_status)heap->end_status;
    if (status == ZELAMIKU_OK) {
        seat *by = borrow_seat(heap);
        find_owners(heap, by, owners);
        if (by != NULL) return_seat(by);
        *written = list_waits(heap, owners, waits, count);
    }
    unlock(&heap->mutex);
    return status == ZELAMIKU_OK ? status : tell_end(heap, status, heap->error, "waits");
}

zelamiku_status zelamiku_heap_waits(zelamiku_heap handle, zelamiku_wait *waits, size_t count, size_t *written) {
    if (written == NULL || (waits == NULL && count > 0)) return null_pointer("waits", "give each");
    *written = 0;
    return ON_HEAP(handle, "waits", waits_of(heap, waits, count, written));
}
