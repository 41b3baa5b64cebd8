/* Rounds: how threads' sections become durable. One thread at a time leads (`is_led`, under the heap's mutex). The leader takes records from the
 * lanes' rings into the proved library, and makes the device's calls that the library requests. These include two syncs if the heap has a lane
 * for the helper, else four; with a journal, one. The leader holds no lock meanwhile.
 *
 *  1. Who leads. The first thread to wait leads, on behalf of all that join meanwhile. Starting the round then needs no wake-up. A thread with a
 *     deadline leaves the round to the helper, and so does each thread after a failed write. So does one that waits for many sections at once
 *     while other lanes have some: the helper then makes round after round beside the running threads. A thread that wants no round, only that
 *     none is in progress (a copy, a close), leads as a guest, and goes first.
 *  2. When. At once if a thread waits for its sections or for room, if a lane has sent three quarters of what its ring or its log takes, or if
 *     the last round has reached its bound. Otherwise the helper makes one, a linger after the end of a section that has stored. A section that
 *     has only loaded requests none: it goes with the next. After a failed write, each second.
 *  3. Gathering. The threads that the last round has woken come back soon, each with one more section. The leader waits until as many have come,
 *     at most an eighth of the time that the last calls took: a thread that misses a round waits for all of the next.
 *  4. Bounds. A round takes as many records as the last one would have taken in the time of its calls, and at least 4,096 for each lane with
 *     sections. So a waiting thread isn't delayed by what others send. If nobody waits, or everybody does, it takes a ring's fill for each lane.
 *  5. Room. While records are taken (`steps` is odd) every lane gains room. Threads without room poll, up to an eighth of the calls' time: the
 *     same round takes what they do next. While calls are made they sleep.
 *  6. No lost wake. The leader writes `acknowledged`, then `round_bell`, then wakes. A waiting thread reads the bell, then its sections, and
 *     sleeps only while the bell is as it was read. A section's end writes `ended`, then reads `has_work`; the leader clears `has_work`, then
 *     reads `ended`. All of these are sequentially consistent, so one of the two sees the other. */
/* ---- waiting for a round ---- */

static bool is_durable(const seat *own, uint64_t sections) {
    return own->acknowledged >= sections;
}

/* DEVICE if a write has failed since there were so many troubles, and will be made again. Not after the heap has ended: the thread then gets
 * that status. */
static zelamiku_status trouble_since(const heap *heap, uint64_t troubles) {
    return heap->troubles == troubles || heap->end_status != 0 ? ZELAMIKU_OK : ZELAMIKU_DEVICE;
}

/* Sleeps until the leader's next step, or the deadline. */
static zelamiku_status sleep_for_step(heap *heap, seat *own, uint64_t step, unsigned *demands, uint64_t deadline, bool *is_late) {
    uint64_t troubles = heap->troubles;
    zelamiku_status status;
    heap->awaiting++;
    own->is_behind = 1;
    /* A round that is taking records, or is about to start, makes the same room: no need to request one. */
    if (step % 2 == 0 && heap->steps == step && !heap->has_more && *demands < DEMANDS) {
        ++*demands;
        demand(heap, ZELAMIKU_ROUND_ROOM);
    }
    while ((status = trouble_since(heap, troubles)) == ZELAMIKU_OK && (status = (zelamiku_status)heap->end_status) == ZELAMIKU_OK && !*is_late &&
           heap->steps == step)
        *is_late = !sleep_seat(own, deadline);
    own->is_behind = 0;
    heap->awaiting--;
    return status;
}

/* Waits for room; at that step there was none. While the leader takes records the thread polls: the same round takes what it does then. While
 * calls are made, which may last, it sleeps. If as many threads wait as there are processors, they nap: the more they are the longer, so all of
 * them together poll as often as one does. */
static zelamiku_status await_room(heap *heap, seat *own, uint64_t step, unsigned *demands, uint64_t deadline, bool *is_late) {
    uint64_t now = zelamiku_now();
    *is_late = now >= deadline;
    if (step % 2 == 0 || now >= heap->poll_until) return sleep_for_step(heap, own, step, demands, deadline, is_late);
    uint32_t waiting = ++heap->awaiting;
    if (waiting < heap->processors)
        (void)sched_yield();
    else
        nap((uint64_t)NAP * waiting);
    heap->awaiting--;
    return ZELAMIKU_OK;
}

/* ---- a round ---- */

/* Waits until as many threads have come for their sections as the last round has woken, and event loops have ended as many sections; for a part
 * of the last calls' time at most. A thread that misses a round waits for all of the next one. */
static void gather(heap *heap) {
    uint64_t now = zelamiku_now(), part = heap->last_calls / GATHERED_PART, soon = now + NAP / 2;
    uint64_t end = now + (part < MOST_PART ? part : MOST_PART);
    while (heap->arrivals + sections_of_loops(heap) < heap->expected + heap->expected_sections && (now = zelamiku_now()) < end)
        if (now < soon)
            __builtin_ia32_pause();
        else
            nap(NAP / 2);
}

/* Wakes the threads that sleep without room. */
static void wake_those_behind(heap *heap) {
    for (uint32_t lane = 0; lane < heap->lanes; lane++)
        if (seat_at(heap, lane)->is_behind) ring_seat(seat_at(heap, lane));
}

/* Waits until they are awake, or until that time: otherwise the rings may be empty before the first of them has gone on. */
static void await_woken(heap *heap, uint64_t end) {
    for (uint32_t lane = 0; lane < heap->lanes; lane++)
        while (seat_at(heap, lane)->is_behind && zelamiku_now() < end) nap(NAP);
}

/* A round's bound, in records, if so many lanes have sections for it, and so many threads wait for theirs: as many as the last round would have
 * taken in the time of its calls. So other lanes' records don't delay a waiting thread for long, and no more time goes into calls than into the
 * rest. At least FEWEST for each lane, so a thousand sections of four records are one round. If nobody waits, or as many threads as there are
 * lanes, no thread is delayed by others: then a ring's fill for each lane. */
static uint64_t bound(const heap *heap, uint32_t lanes, uint32_t waiting) {
    uint64_t least = waiting == 0 || waiting >= lanes ? heap->room : FEWEST;
    least *= lanes > 0 ? lanes : 1;
    return heap->affordable > least ? heap->affordable : least;
}

/* Notes how long it took to take so many records, and how long the calls after it took. */
static void note_times(heap *heap, uint64_t records, uint64_t taking, uint64_t calls) {
    heap->last_calls = calls;
    if (calls > MOST_PART) calls = MOST_PART;
    if (records > 0) heap->affordable = records * calls / (taking + 1);
}

/* Takes what the threads have done, at most so many records, and reports how long that took. If calls take long, it pays to get much into one
 * round: threads without room are woken first. Otherwise they have room soon, and sleep until all is taken. */
static zelamiku_status take(heap *heap, uint64_t most, uint64_t *records, uint64_t *time) {
    uint64_t begun = zelamiku_now(), part = heap->last_calls / POLLED_PART;
    if (part > MOST_PART) part = MOST_PART;
    heap->poll_until = begun + part;
    assert(heap->is_led && heap->steps % 2 == 0);
    heap->steps++;
    if (part > NAP) {
        wake_those_behind(heap);
        await_woken(heap, begun + part / 4);
    }
    begun = zelamiku_now();
    zelamiku_status status = zelamiku_round(&heap->handle, most, records);
    assert(*records <= most && heap->steps % 2 == 1);
    *time = zelamiku_now() - begun;
    heap->has_more = *records == most;
    heap->steps++;
    wake_those_behind(heap);
    return status;
}

/* Makes the pending calls, and counts those on the device. Reports a call that is LOST to the library, which stops the heap if it was a sync. */
static zelamiku_status make_calls(heap *heap, uint64_t *calls) {
    uint64_t made = 0, syncs = 0;
    zelamiku_status status = make_calls_on(&heap->handle, &heap->device, &made, &syncs);
    int error = errno;
    if (is_journaled(heap)) take_counts(&heap->journal, &made, &syncs);
    *calls += made;
    heap->syncs_made += syncs;
    if (status == ZELAMIKU_LOST) {
        zelamiku_status told = zelamiku_call_failed(&heap->handle);
        assert(told == ZELAMIKU_STOPPED || told == ZELAMIKU_OK);
        (void)told;
    }
    errno = error;
    return status;
}

/* The same. Once all calls of a round are made, counts the round by its syncs. A failed write leaves some of them to the next round. */
static zelamiku_status make_rounds_calls(heap *heap, zelamiku_stats *count) {
    zelamiku_status status = make_calls(heap, &count->calls);
    if (status != ZELAMIKU_OK) return status;
    uint64_t syncs = heap->syncs_made - heap->syncs_before;
    heap->syncs_before = heap->syncs_made;
    count->one_sync_rounds += syncs == 1;
    count->two_sync_rounds += syncs == 2;
    count->four_sync_rounds += syncs == 4;
    return status;
}

/* Makes the calls that a failed write left, then a round of at most so many records, and its calls. Counts what is durable by them, unless it
 * may have gone to another file. */
static zelamiku_status round_and_calls(heap *heap, uint64_t most, zelamiku_stats *count) {
    uint64_t taking = 0;
    zelamiku_status status = has_its_file(heap) ? make_rounds_calls(heap, count) : ZELAMIKU_LOST;
    if (status == ZELAMIKU_OK) status = take(heap, most, &count->records, &taking);
    uint64_t begun = zelamiku_now();
    if (status == ZELAMIKU_OK) status = make_rounds_calls(heap, count);
    count->calls_time = zelamiku_now() - begun;
    note_times(heap, count->records, taking, count->calls_time);
    if (status == ZELAMIKU_OK && !has_its_file(heap)) status = ZELAMIKU_LOST;
    for (uint32_t lane = 0; status == ZELAMIKU_OK && lane < heap->lanes; lane++) {
        uint64_t sections = 0;
        status = zelamiku_acknowledged(&heap->handle, lane, &sections);
        assert(status != ZELAMIKU_OK || sections >= seat_at(heap, lane)->acknowledged);
        if (status == ZELAMIKU_OK && seat_at(heap, lane)->acknowledged != sections) seat_at(heap, lane)->acknowledged = sections;
    }
    return public_status(status);
}

/* Under the mutex: later calls check `end_status`. */
static void shut(heap *heap, bool is_for_good) {
    assert(holds(&heap->mutex) || heap->end_status == ZELAMIKU_FORKED); /* in a child no other thread is */
    for (uint32_t lane = 0; lane < heap->lanes; lane++) {
        seat_at(heap, lane)->number = 0;
        if (is_for_good) seat_at(heap, lane)->open = 0;
    }
}

/* Under the mutex: ends the heap, and wakes every sleeping thread. */
static void end(heap *heap, zelamiku_status status) {
    assert(holds(&heap->mutex));
    assert(status != ZELAMIKU_OK);
    if (heap->end_status != 0) return;
    heap->end_status = (uint32_t)status;
    shut(heap, true);
    tell_loops(heap, false, true);
    for (uint32_t lane = 0; lane < heap->lanes; lane++) ring_seat(seat_at(heap, lane));
}

/* Under the mutex: the leader stops leading. */
static void lead_no_more(heap *heap, bool is_helper) {
    assert(holds(&heap->mutex));
    assert(heap->is_led);
    heap->is_led = heap->leader_waits = false;
    bool is_wanted = (heap->has_work && (heap->awaiting > 0 || !heap->has_timer)) || (heap->has_reads && heap->awaiting > 0);
    if (!is_helper && (heap->urgent != 0 || heap->has_more || is_wanted || heap->is_troubled || heap->is_ending)) ring_helper(heap);
}

static void add_up(zelamiku_stats *all, const zelamiku_stats *round) {
    all->rounds++;
    all->records += round->records;
    all->calls += round->calls;
    all->calls_time += round->calls_time;
    all->one_sync_rounds += round->one_sync_rounds;
    all->two_sync_rounds += round->two_sync_rounds;
    all->four_sync_rounds += round->four_sync_rounds;
    all->last_cause = round->last_cause;
    all->is_astray = round->is_astray;
    if (round->longest_round > all->longest_round) all->longest_round = round->longest_round;
}

/* Logs a round's outcome: its status and errno, whether the one before was in trouble, and whether the path has just begun to lead elsewhere. */
static void log_round(const heap *heap, zelamiku_status status, int error, bool was_troubled, bool has_strayed) {
    bool is_trouble = status == ZELAMIKU_DEVICE, is_end = status != ZELAMIKU_OK && !is_trouble;
    if (is_end) tell_log(heap, ZELAMIKU_LOG_ERROR, "%s: %s; %s", text_of(status, 0), strerror(error), cure_of(status, error));
    if (is_trouble && !was_troubled) tell_log(heap, ZELAMIKU_LOG_WARNING, "a write has failed, and is made again: %s", strerror(error));
    if (was_troubled && status == ZELAMIKU_OK) tell_log(heap, ZELAMIKU_LOG_INFO, "writes go on");
    if (has_strayed) tell_log(heap, ZELAMIKU_LOG_WARNING, "the path doesn't lead to the heap's file any more: it was removed or replaced");
}

/* Publishes a round's outcome, and wakes the threads that waited for it. */
static void finish(heap *heap, zelamiku_status status, int error, const zelamiku_stats *round, bool is_helper) {
    bool is_trouble = status == ZELAMIKU_DEVICE, is_end = status != ZELAMIKU_OK && !is_trouble;
    lock(&heap->mutex);
    bool was_troubled = heap->is_troubled, has_strayed = round->is_astray != 0 && heap->stats.is_astray == 0;
    bool has_news = is_end || is_trouble != was_troubled || has_strayed;
    heap->is_troubled = is_trouble;
    if (is_trouble) heap->has_more = 0; /* it doesn't come at once */
    add_up(&heap->stats, round);
    heap->stats.syncs = heap->syncs_made;
    /* The first cause of the heap's end stays, even if a stop has set another status meanwhile. */
    if (is_trouble || (is_end && !heap->is_settled)) heap->error = error;
    heap->troubles += is_trouble;
    if (is_end) {
        end(heap, status);
        heap->is_settled = 1;
    }
    heap->rounds++;
    assert(heap->sleepers <= heap->awaiting);
    heap->awaiting -= heap->sleepers;
    heap->sleepers = 0;
    tell_loops(heap, is_trouble, is_end);
    if (has_news) begin_hook(heap);
    lead_no_more(heap, is_helper);
    unlock(&heap->mutex);
    tell_all(heap);
    if (is_trouble) wake_those_behind(heap);
    if (!has_news) return;
    log_round(heap, status, error, was_troubled, has_strayed);
    end_hook(heap);
}

/* Checks each second, while rounds are made, whether the path still leads to the heap's file. If that can't be found out it stays as it was. */
static bool is_astray(heap *heap) {
    struct stat named;
    uint64_t now = zelamiku_now();
    bool was = heap->stats.is_astray != 0;
    if (heap->where == NULL || now - heap->path_checked < SECOND) return was;
    heap->path_checked = now;
    bool is_there = stat(heap->where, &named) == 0;
    if (!is_there && errno != ENOENT && errno != ENOTDIR) return was;
    return !is_there || named.st_dev != heap->volume || named.st_ino != heap->inode;
}

/* Makes a round. The caller leads already, and no longer afterwards. */
static zelamiku_status lead(heap *heap, uint32_t cause, bool is_helper) {
    zelamiku_stats round = {.last_cause = cause};
    if (cause == ZELAMIKU_ROUND_AWAITED) gather(heap);
    uint64_t begun = zelamiku_now();
    lock(&heap->mutex);
    assert(heap->is_led);
    heap->urgent = 0;
    unlock(&heap->mutex);
    uint32_t come = atomic_exchange(&heap->arrivals, 0), sections = sections_of_loops(heap);
    /* This round takes every section that ended before this line: one whose end isn't seen here finds the word 0, and rings. */
    heap->has_reads = 0;
    heap->has_work = 0;
    uint32_t lanes = 0, waiting = (come > heap->expected ? come : heap->expected) + begin_for_loops(heap);
    for (uint32_t lane = 0; lane < heap->lanes; lane++) lanes += seat_at(heap, lane)->ended > seat_at(heap, lane)->acknowledged;
    /* Nothing comes after the last one. */
    uint64_t most = cause == ZELAMIKU_ROUND_CLOSING ? ZELAMIKU_ALL : bound(heap, lanes, waiting);
    zelamiku_status status = round_and_calls(heap, most, &round);
    int error = errno;
    heap->expected = come + heap->arrivals;
    heap->expected_sections = sections + sections_of_loops(heap);
    round.longest_round = zelamiku_now() - begun;
    round.is_astray = is_astray(heap);
    finish(heap, status, error, &round, is_helper);
    return status;
}

/* Whether many sections of the lane aren't durable, and other lanes have some too. Taking them into a round lasts, and the next group could
 * begin meanwhile: so the helper makes it. */
static bool is_one_of_groups(heap *heap, const seat *own) {
    if (own->ended - own->acknowledged < GROUP) return false;
    for (uint32_t lane = 0; lane < heap->lanes; lane++) {
        const seat *other = seat_at(heap, lane);
        if (other != own && other->ended > other->acknowledged) return true;
    }
    return false;
}

/* The first thread to wait leads the round for all that come: it needn't wake the helper, nor be woken. Returns whether it leads now. Otherwise
 * it is counted as waiting until a round has ended, unless it has been since round `counted`. With `leaves_it`, or after a failed write, the
 * round is left to the helper. */
static bool leads_or_counts(heap *heap, bool leaves_it, uint64_t *counted) {
    lock(&heap->mutex);
    bool has_sections = heap->has_work || heap->has_reads || heap->has_more;
    bool is_free = !heap->is_led && heap->waiting_to_lead == 0 && heap->end_status == 0;
    bool leads = is_free && has_sections && !leaves_it && !heap->is_troubled;
    if (leads) {
        heap->is_led = heap->leader_waits = true;
    } else if (*counted != heap->rounds) {
        *counted = heap->rounds;
        heap->awaiting++;
        heap->sleepers++;
        if (heap->is_troubled || (leaves_it && has_sections)) ask(heap, ZELAMIKU_ROUND_AWAITED);
    }
    unlock(&heap->mutex);
    return leads;
}

/* The thread stops waiting. If no round has ended since it was counted, uncounts it. */
static void count_no_more(heap *heap, uint64_t counted) {
    if (heap->rounds != counted) return;
    lock(&heap->mutex);
    if (heap->rounds == counted) {
        assert(heap->sleepers > 0 && heap->awaiting > 0);
        heap->awaiting--;
        heap->sleepers--;
    }
    unlock(&heap->mutex);
}

/* Under the mutex, which it releases while it sleeps: leads, for other work than a round. */
static void lead_as_guest(heap *heap) {
    assert(holds(&heap->mutex));
    heap->waiting_to_lead++;
    while (heap->is_led) {
        uint32_t seen = heap->round_bell;
        unlock(&heap->mutex);
        (void)sleep_on(&heap->round_bell, seen, ZELAMIKU_NO_DEADLINE);
        lock(&heap->mutex);
    }
    assert(heap->waiting_to_lead > 0);
    heap->waiting_to_lead--;
    heap->is_led = true;
}

/* ---- the helper ---- */

/* Under the mutex: why a round comes now. */
static uint32_t cause_of(const heap *heap, bool is_due) {
    assert(holds(&heap->mutex));
    if (heap->end_status != 0) return ZELAMIKU_ROUND_NONE;
    if (heap->urgent != 0) return heap->urgent;
    if (heap->is_troubled) return is_due ? ZELAMIKU_ROUND_AGAIN : ZELAMIKU_ROUND_NONE;
    if (heap->has_more) return ZELAMIKU_ROUND_LEFT;
    if (heap->awaiting > 0 && (heap->has_work || heap->has_reads)) return ZELAMIKU_ROUND_AWAITED;
    return heap->has_work && is_due ? ZELAMIKU_ROUND_LINGER : ZELAMIKU_ROUND_NONE;
}

/* Whether a section that has stored has ended and isn't durable. Reads its lane's count first: `last_stored` was written before it. */
static bool has_stores(heap *heap) {
    for (uint32_t lane = 0; lane < heap->lanes; lane++) {
        seat *other = seat_at(heap, lane);
        if (other->ended > other->acknowledged && other->last_stored > other->acknowledged) return true;
    }
    return false;
}

/* Under the mutex, once the linger has passed and while nobody leads: whether that makes a round. A section that has only loaded needs none: it
 * goes with the next round, or with one for a thread that waits. The lanes are checked after the word is set to 0: a section that ends meanwhile
 * is seen, or rings. */
static bool comes_by_linger(heap *heap) {
    assert(holds(&heap->mutex));
    if (!heap->has_work || heap->urgent != 0 || heap->is_troubled || heap->awaiting > 0) return true;
    heap->has_reads = 1;
    heap->has_work = 0;
    if (!has_stores(heap)) return false;
    heap->has_work = 1;
    return true;
}

/* Under the mutex, which it releases while it sleeps: sleeps until a round is needed, and returns why; NONE: the heap has ended. After a round
 * the helper checks again within the linger, so no section's end has to wake it meanwhile. A check that finds nothing is the last: then the next
 * section's end wakes it. While another thread leads it checks nothing: the leader rings when it finishes. If the leader's write has failed, a
 * timer that is more than a second away is set to a second. */
static uint32_t rest(heap *heap) {
    assert(holds(&heap->mutex));
    uint64_t due = ZELAMIKU_NO_DEADLINE;
    for (bool has_begun = false;; has_begun = true) {
        bool is_due = due != ZELAMIKU_NO_DEADLINE && zelamiku_now() >= due, is_free = !heap->is_led && heap->waiting_to_lead == 0;
        if (heap->is_ending) return ZELAMIKU_ROUND_NONE;
        if (is_due) {
            heap->has_timer = 0; /* before it is looked whether there is work */
            due = ZELAMIKU_NO_DEADLINE;
            is_due = !is_free || comes_by_linger(heap);
        }
        uint32_t cause = is_free ? cause_of(heap, is_due) : (uint32_t)ZELAMIKU_ROUND_NONE;
        if (cause != ZELAMIKU_ROUND_NONE) {
            heap->is_led = true;
            heap->has_timer = 1; /* it looks again after the round */
            return cause;
        }
        bool has_reason = !has_begun || (!heap->is_led && (heap->has_work || heap->is_troubled));
        bool is_wanted = due == ZELAMIKU_NO_DEADLINE ? has_reason : heap->is_troubled && after(SECOND) < due;
        if (is_wanted && heap->end_status == 0) {
            due = after(heap->is_troubled ? SECOND : heap->linger);
            heap->has_timer = 1;
        }
        uint32_t seen = heap->helper_bell;
        unlock(&heap->mutex);
        (void)sleep_on(&heap->helper_bell, seen, due);
        lock(&heap->mutex);
    }
}

static void *help(void *data) {
    heap *heap = data;
    (void)pthread_setname_np(pthread_self(), "zelamiku");
    run_soon();
    lock(&heap->mutex);
    for (uint32_t cause; (cause = rest(heap)) != ZELAMIKU_ROUND_NONE;) {
        unlock(&heap->mutex);
        (void)lead(heap, cause, true);
        lock(&heap->mutex);
    }
    unlock(&heap->mutex);
    return NULL;
}
