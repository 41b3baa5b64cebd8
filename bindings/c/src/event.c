/* Threads with an event loop: what they have requested, and the events that they wait for.
 *
 * The heap's mutex guards what a loop waits for (`asked`, `lacks_room`) and what it knows. Both that mutex and the registry's guard the
 * descriptor, so either is enough to read it. */
/* ---- threads with an event loop ---- */

/* Under the mutex: while an event loop waits for sections or room it counts among the threads that wait for a round, though its thread doesn't
 * sleep here. Otherwise no round would come once a section ends that its own sections depend on. */
static void count_loop(heap *heap, seat *own) {
    assert(holds(&heap->mutex));
    bool waits = own->asked != 0 || own->lacks_room;
    if (waits == own->counts_as_waiting) return;
    own->counts_as_waiting = waits;
    if (waits) {
        heap->loops++;
        heap->awaiting++;
    } else {
        assert(heap->loops > 0 && heap->awaiting > 0);
        heap->loops--;
        heap->awaiting--;
    }
}

/* Whether the lane has an event. Another file that has its number is neither written, read nor closed. */
static bool has_its_event(const seat *own) {
    return own->event != 0 && has_mark(own->event - 1, MARK_OF_EVENT);
}

/* Under the mutex, which keeps the descriptor open. */
static void ring_event(seat *other) {
    assert(holds(&place_of(other)->mutex));
    static const uint64_t one = 1;
    other->is_rung = true;
    if (has_its_event(other)) (void)!write(other->event - 1, &one, sizeof one);
}

/* Under the mutex: makes the event unreadable. */
static void quieten_event(seat *own) {
    assert(holds(&place_of(own)->mutex));
    uint64_t rung;
    own->is_rung = false;
    if (has_its_event(own)) (void)!read(own->event - 1, &rung, sizeof rung);
}

/* Under the mutex, after a round: rings for each loop that waits for it. After the heap has ended, rings for all. A loop's request stands until
 * its sections are durable. */
static void tell_loops(heap *heap, bool is_trouble, bool is_end) {
    assert(holds(&heap->mutex));
    if (heap->loops == 0 && !is_end) return;
    for (uint32_t lane = 0; lane < heap->lanes; lane++) {
        seat *other = seat_at(heap, lane);
        uint64_t durable = other->acknowledged;
        bool is_due = other->lacks_room || (other->asked != 0 && (is_trouble || durable != other->loop_knows));
        other->loop_knows = durable;
        other->may_have_room |= other->lacks_room;
        other->lacks_room = false;
        if (durable >= other->asked || is_end) other->asked = 0;
        count_loop(heap, other);
        if (is_due || is_end) ring_event(other);
    }
}

/* How many sections event loops have ended since the last round began. A client may wait for each of them, like a thread that sleeps. The leader
 * calls it. */
static uint32_t sections_of_loops(heap *heap) {
    uint64_t count = 0;
    for (uint32_t lane = 0; heap->events > 0 && lane < heap->lanes; lane++) {
        seat *other = seat_at(heap, lane);
        if (!other->has_event) continue;
        uint64_t begun = other->begun; /* before `ended` is read */
        count += other->ended - begun;
    }
    return count < UINT32_MAX / 2 ? (uint32_t)count : UINT32_MAX / 2;
}

/* A round begins: how many event loops wait for it. */
static uint32_t begin_for_loops(heap *heap) {
    uint32_t loops = 0;
    for (uint32_t lane = 0; heap->events > 0 && lane < heap->lanes; lane++) {
        seat *other = seat_at(heap, lane);
        if (!other->has_event) continue;
        other->begun = other->ended;
        loops += other->begun > other->acknowledged;
    }
    return loops;
}

/* A try to enter has found no room. With an event its thread waits from now on: it needn't try again before the event is readable. It requests a
 * few rounds; a later one follows the end of another section, as in sleep_for_step. */
static void note_no_room(heap *heap, seat *own) {
    lock(&heap->mutex);
    if (own->event == 0) {
        ask(heap, ZELAMIKU_ROUND_ROOM);
    } else {
        if (own->lacked_at != own->ended + 1) own->demands = 0;
        own->lacked_at = own->ended + 1;
        own->lacks_room = true;
        own->may_have_room = false;
        count_loop(heap, own);
        if (own->demands < DEMANDS && !heap->is_troubled) {
            own->demands++;
            ask(heap, ZELAMIKU_ROUND_ROOM);
        }
    }
    unlock(&heap->mutex);
}

/* ---- descriptors ---- */

/* Under the registry's mutex, for a fork; or in a child. */
static void close_event(heap *heap, seat *own) {
    assert(holds(&registry));
    if (own->event == 0) return;
    if (has_its_event(own)) (void)close(own->event - 1);
    own->event = 0;
    own->has_event = 0;
    heap->events--;
}

/* The same for all lanes that a heap of the place has ever had. */
static void close_events(heap *heap) {
    if (heap->events == 0) return;
    for (uint32_t lane = 0; lane < ZELAMIKU_MOST_LANES; lane++) close_event(heap, seat_at(heap, lane));
}

/* The thread returns the lane, also after the heap has ended: it waits for nothing, and has no event. */
static void drop_event(heap *heap, seat *own) {
    lock(&heap->mutex);
    own->asked = own->lacked_at = 0;
    own->lacks_room = own->may_have_room = own->is_rung = false;
    count_loop(heap, own);
    lock(&registry);
    close_event(heap, own);
    unlock(&registry);
    if (heap->end_status != 0) own->is_lent = false;
    unlock(&heap->mutex);
}

/* Under the registry's mutex: whether a lane has an event of that number. */
static bool is_of_a_lane(int file) {
    assert(holds(&registry));
    for (size_t place = 1; place < ZELAMIKU_MOST_HEAPS; place++)
        for (uint32_t lane = 0; heaps[place].events > 0 && lane < ZELAMIKU_MOST_LANES; lane++)
            if (seat_at(&heaps[place], lane)->event == file + 1) return true;
    return false;
}

/* Under the registry's mutex: an event whose number no lane has. If the program has closed a lane's event, the system reuses its number, and
 * that lane would take the new event for its own. -1 with errno. */
static int new_event(void) {
    assert(holds(&registry));
    int file = above_streams(eventfd(0, EFD_CLOEXEC | EFD_NONBLOCK));
    while (file >= 0 && is_of_a_lane(file)) file = move_above(file, file);
    if (file < 0 || mark(file, MARK_OF_EVENT)) return file;
    int error = errno;
    (void)close(file);
    errno = error;
    return -1;
}

/* Under the mutex: makes the lane's event, or replaces one that the program has closed. False: the system has no descriptor; errno is set. */
static bool make_event(heap *heap, seat *own) {
    assert(holds(&heap->mutex));
    lock(&registry);
    close_event(heap, own);
    int file = new_event(), error = errno;
    if (file >= 0) {
        own->event = file + 1;
        own->begun = own->ended;
        own->has_event = 1; /* after `begun`, which the leader reads then */
        heap->events++;
    }
    unlock(&registry);
    if (file >= 0 && (own->is_rung || heap->end_status != 0)) ring_event(own);
    errno = error;
    return file >= 0;
}

/* Locks the mutex, in a call that is counted, for a handle that is lent, also after the heap has ended. NOTHING, FORKED: it isn't locked. */
static zelamiku_status lock_lane(heap *heap, seat *own, zelamiku_thread thread, const char *call) {
    if (!is_lane_of(heap, own, thread)) return nothing(call);
    if (heap->end_status == ZELAMIKU_FORKED) return fail(heap->path, ZELAMIKU_FORKED, 0, NULL, NULL, "%s", call);
    lock(&heap->mutex);
    if (is_lane_of(heap, own, thread)) return ZELAMIKU_OK;
    unlock(&heap->mutex);
    return nothing(call);
}

static zelamiku_status event_of(heap *heap, seat *own, zelamiku_thread thread, int *descriptor) {
    zelamiku_status status = lock_lane(heap, own, thread, "event");
    if (status != ZELAMIKU_OK) return status;
    bool is_lent = own->is_lent, is_there = has_its_event(own) || (is_lent && make_event(heap, own));
    int error = is_there ? 0 : errno;
    *descriptor = is_there ? own->event - 1 : -1;
    unlock(&heap->mutex);
    if (is_there) return ZELAMIKU_OK;
    return is_lent ? fail(heap->path, ZELAMIKU_NO_MEMORY, error, "no descriptor could be made", NULL, "event") : nothing("event");
}

zelamiku_status zelamiku_thread_event(zelamiku_thread thread, int *descriptor) {
    if (descriptor == NULL) return null_pointer("event", "give a descriptor");
    *descriptor = -1;
    seat *own = seat_of(thread);
    return COUNTED(place_of(own), event_of(place_of(own), own, thread, descriptor));
}

/* Under the mutex: makes the event unreadable. Exception: once for a loop that was notified of room and has ended no section since: it may ask
 * before it waits for the event, and try again after that. */
static void quieten_for_ask(seat *own) {
    assert(holds(&place_of(own)->mutex));
    bool is_for_room = own->may_have_room && own->lacked_at == own->ended + 1;
    own->may_have_room = false;
    if (!is_for_room) quieten_event(own);
}

/* Under the mutex: returns how many sections are durable, and requests the others. Whatever comes later rings. */
static zelamiku_status ask_for_all(heap *heap, seat *own, uint64_t *durable) {
    assert(holds(&heap->mutex));
    quieten_for_ask(own);
    /* Read before the sections: a last round writes what it acknowledges before it sets this. */
    zelamiku_status end_status = heap->is_settled ? (zelamiku_status)heap->end_status : ZELAMIKU_OK;
    uint64_t ended = own->ended, acknowledged = own->acknowledged, before = own->earlier;
    *durable = acknowledged > before ? acknowledged - before : 0;
    own->loop_knows = acknowledged;
    if (acknowledged >= own->asked) own->asked = 0;
    /* A write that had failed before the request is reported only when it is made again, and fails. */
    uint64_t known = own->asked != 0 ? own->troubles : heap->troubles;
    own->troubles = heap->troubles;
    bool is_new = acknowledged < ended && own->asked < ended && heap->end_status == 0;
    if (is_new) own->asked = ended;
    count_loop(heap, own);
    if (is_new && (heap->has_work || heap->has_reads || heap->has_more) && !heap->is_troubled) ask(heap, ZELAMIKU_ROUND_AWAITED);
    if (acknowledged >= ended) return own->was_cut_off ? end_status : ZELAMIKU_OK;
    return end_status != ZELAMIKU_OK ? end_status : trouble_since(heap, known);
}

static zelamiku_status ask_of(heap *heap, seat *own, zelamiku_thread thread, uint64_t *durable) {
    zelamiku_status status = lock_lane(heap, own, thread, "ask");
    if (status != ZELAMIKU_OK) return status;
    status = ask_for_all(heap, own, durable);
    unlock(&heap->mutex);
    run_soon();
    return status == ZELAMIKU_OK ? status : tell_end(heap, status, heap->error, "ask");
}

zelamiku_status zelamiku_thread_ask(zelamiku_thread thread, uint64_t *durable) {
    if (durable == NULL) return null_pointer("ask", "give durable");
    *durable = 0;
    seat *own = seat_of(thread);
    return COUNTED(place_of(own), ask_of(place_of(own), own, thread, durable));
}
