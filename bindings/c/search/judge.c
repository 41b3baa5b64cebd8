/* Each call is told to the judge when it begins and when it has answered. In between it takes effect: an exit at the latest when another thread
 * is told that it has the monitor, so that the judge needs no more than that to know the one legal history. */

static void judge_begin(judge *it, const program *of, bool has_transient) {
    judged_store *stores = it->stores;
    size_t room = it->room;
    memset(it, 0, sizeof *it);
    it->stores = stores;
    it->room = room;
    it->lanes = of->lanes;
    it->reverts = of->reverts;
    it->has_transient = has_transient;
    it->is_journaled = it->is_narrow = of->is_journaled;
    for (uint32_t i = 0; i < of->count; i++) it->is_narrow &= of->deeds[i].kind != FILL;
    for (uint32_t object = 0; object < OBJECTS; object++) it->owner[object] = ZELAMIKU_NOBODY;
    for (uint32_t field = 0; field < POOL; field++) it->values[field] = FIRST_VALUE;
    for (uint32_t field = POOL; field < FIELDS; field++) it->values[field] = 0;
}

/* from now on a thread may be told so */
static void judge_ends(judge *it, zelamiku_status status) {
    it->ends |= 1u << (status - ZELAMIKU_LOST);
    it->closers += status == ZELAMIKU_CLOSED;
    for (uint32_t lane = 0; lane < it->lanes; lane++)
        it->of[lane].slips_through |= it->of[lane].call == ENTERS || it->of[lane].call == WAITS;
}

/* Of two calls that end the heap the later one waits until the other one, which does the work, has done it. */
static void judge_ended(judge *it, zelamiku_status status, bool is_refused) {
    if (is_refused && status == ZELAMIKU_CLOSED && --it->closers == 0) it->ends &= ~(1u << (status - ZELAMIKU_LOST));
    it->has_ended |= !is_refused;
}

static bool judge_is_end(const judge *it, zelamiku_status status) {
    bool is_one = status == ZELAMIKU_CLOSED || status == ZELAMIKU_ABANDONED || status == ZELAMIKU_LOST;
    return is_one && (it->ends >> (status - ZELAMIKU_LOST) & 1) != 0;
}

/* locks, all together */
static uint32_t judge_held(const judge *it, uint32_t lane) {
    uint32_t held = 0;
    for (uint32_t object = 0; object < OBJECTS; object++) held += it->of[lane].locks[object];
    return held;
}

/* whether a section is */
static bool judge_is_open(const judge *it) {
    for (uint32_t lane = 0; lane < it->lanes; lane++)
        if (judge_held(it, lane) > 0) return true;
    return false;
}

/* A call that ends the heap begins, and has come back with OK, alone: what was open has ended before a close, and what had ended is durable. */
static void judge_note_sections(const judge *it, judged_sections *before) {
    before->is_any_open = judge_is_open(it);
    for (uint32_t lane = 0; lane < it->lanes; lane++) {
        before->is_open[lane] = judge_held(it, lane) > 0 && it->of[lane].call == NO_CALL;
        before->ended[lane] = it->of[lane].ended;
    }
}

static void judge_closed(const judge *it, const judged_sections *before) {
    judged_sections now;
    judge_note_sections(it, &now);
    for (uint32_t lane = 0; lane < it->lanes; lane++)
        if (before->is_open[lane] && now.is_open[lane] && before->ended[lane] == now.ended[lane]) search_fail("close is OK, and a section of lane %u is open", lane);
}

static void judge_settled(judge *it, const judged_sections *before) {
    for (uint32_t lane = 0; lane < it->lanes && !before->is_any_open; lane++)
        if (it->of[lane].durable < before->ended[lane]) it->of[lane].durable = before->ended[lane];
}

/* Whether the section may have as many records as one may. */
static bool may_be_full(const judge *it, uint32_t lane) {
    return judge_held(it, lane) > 0 && it->of[lane].records > 400;
}

static uint32_t guard_of(uint32_t field) {
    return field == PASSING ? 0 : field >= POOL ? 2 : field % OBJECTS;
}

/* ---- calls ---- */

static judged_lane *begin_call(judge *it, uint32_t lane, judged_call call, uint32_t object) {
    judged_lane *own = &it->of[lane];
    own->call = call;
    own->object = object;
    own->has_let_go = false;
    if ((call == ENTERS || call == WAITS) && it->ends != 0 && !it->has_ended) own->slips_through = true;
    own->was_ended = it->has_ended;
    own->must_end = it->has_ended && !own->slips_through;
    return own;
}

/* Whether the call has answered that the heap is at its end. */
static bool tells_end(judge *it, uint32_t lane, zelamiku_status status) {
    judged_lane *own = &it->of[lane];
    own->call = NO_CALL;
    if (judge_is_end(it, status)) return true;
    if (own->must_end) search_fail("lane %u: %u after the heap's end", lane, status);
    return false;
}

/* Another thread has the lane now. Of the one before it has nothing. */
static void judge_lent(judge *it, uint32_t lane) {
    judged_lane *own = &it->of[lane];
    memset(own->locks, 0, sizeof own->locks);
    own->call = NO_CALL;
    own->slips_through = own->must_end = own->has_stored = own->is_lasting = own->is_past = own->has_asked = false;
    own->is_short = 0;
}

/* ---- monitors ---- */

/* Whether the section that is open has stored under the monitor, but for what it has taken back. */
static bool has_stored_under(const judge *it, uint32_t lane, uint32_t object) {
    for (size_t i = it->count; i-- > 0 && it->of[lane].has_stored;) {
        const judged_store *store = &it->stores[i];
        bool is_ours = store->lane == lane && store->section == it->of[lane].ended + 1;
        if (is_ours && !store->is_back && guard_of(store->field) == object) return true;
    }
    return false;
}

/* The lane has freed that monitor, and with it perhaps the last. */
static void end_section(judge *it, uint32_t lane, uint32_t object) {
    judged_lane *own = &it->of[lane];
    if (judge_held(it, lane) > 0) {
        own->is_past |= has_stored_under(it, lane, object);
        return;
    }
    own->is_past = false;
    own->ended++;
    if (own->is_lasting) own->stored = own->ended;
    own->has_stored = own->is_lasting = false;
}

/* The exit or the wait that the lane is in has taken effect. */
static void let_go(judge *it, uint32_t lane) {
    judged_lane *own = &it->of[lane];
    own->has_let_go = true;
    own->records++;
    if (own->call == EXITS && --own->locks[own->object] > 0) return;
    own->locks[own->object] = 0;
    it->owner[own->object] = ZELAMIKU_NOBODY;
    if (own->call == WAITS) it->set[own->object] |= (uint64_t)1 << lane;
    end_section(it, lane, own->object);
}

/* The heap's end has answered an exit or a wait. Its lane goes on with nothing, so the monitor may be free, and who tries may find it held. Who
 * waited may be in the set still. */
static void cut_off(judge *it, uint32_t lane) {
    judged_lane *own = &it->of[lane];
    if (!own->has_let_go) let_go(it, lane);
    it->set[own->object] &= ~((uint64_t)1 << lane);
    it->cut[own->object] |= (uint64_t)1 << lane;
}

/* Whoever tries meanwhile may have found the monitor taken. */
static void tell_of_owner(judge *it, uint32_t lane, uint32_t object) {
    for (uint32_t other = 0; other < it->lanes; other++)
        if (other != lane && it->of[other].call == ENTERS && it->of[other].object == object) it->of[other].may_be_held = true;
}

static void take(judge *it, uint32_t lane, uint32_t object, uint32_t locks) {
    uint32_t owner = it->owner[object];
    if (owner != ZELAMIKU_NOBODY && owner != lane) {
        judged_lane *other = &it->of[owner];
        bool lets_go = (other->call == EXITS || other->call == WAITS) && other->object == object && !other->has_let_go;
        if (lets_go) let_go(it, owner);
        if (it->owner[object] != ZELAMIKU_NOBODY) search_fail("lanes %u and %u have object %u at once", owner, lane, object);
    }
    it->owner[object] = lane;
    it->of[lane].locks[object] += locks;
    it->of[lane].records++;
    tell_of_owner(it, lane, object);
}

static void judge_enters(judge *it, uint32_t lane, uint32_t object, uint64_t deadline) {
    judged_lane *own = begin_call(it, lane, ENTERS, object);
    uint32_t owner = it->owner[object];
    own->deadline = deadline;
    own->may_be_held = owner != ZELAMIKU_NOBODY && owner != lane;
    for (uint32_t other = 0; other < it->lanes; other++) {
        judged_call call = it->of[other].call;
        if (other != lane && (call == ENTERS || call == WAITS) && it->of[other].object == object) own->may_be_held = true;
    }
    tell_of_owner(it, lane, object);
}

static void judge_entered(judge *it, uint32_t lane, zelamiku_status status) {
    judged_lane *own = &it->of[lane];
    if (tells_end(it, lane, status)) return;
    bool is_answer = status == ZELAMIKU_HELD || status == ZELAMIKU_BEHIND, is_late = own->deadline == 0 || search_time() >= own->deadline;
    if (status == ZELAMIKU_OK) return take(it, lane, own->object, 1);
    if (is_answer && !is_late) search_fail("lane %u: enter %u answers %u before its deadline", lane, own->object, status);
    bool may_be_held = own->may_be_held || it->cut[own->object] != 0;
    if (status == ZELAMIKU_HELD && !may_be_held) search_fail("lane %u: object %u is HELD, and nobody has it", lane, own->object);
    if (status == ZELAMIKU_BEHIND && judge_held(it, lane) > 0) search_fail("lane %u: no room in the middle of a section", lane);
    if (status == ZELAMIKU_DEVICE && it->has_trouble) return;
    if (status == ZELAMIKU_SECTION_FULL && may_be_full(it, lane)) return;
    if (!is_answer) search_fail("lane %u: enter %u answers %u", lane, own->object, status);
}

static void judge_exits(judge *it, uint32_t lane, uint32_t object) {
    (void)begin_call(it, lane, it->of[lane].locks[object] > 0 ? EXITS : NO_CALL, object);
}

static void judge_exited(judge *it, uint32_t lane, zelamiku_status status) {
    judged_lane *own = &it->of[lane];
    bool is_held = own->call == EXITS;
    if (is_held && status == ZELAMIKU_OK && !own->has_let_go) let_go(it, lane);
    if (is_held && judge_is_end(it, status)) cut_off(it, lane);
    if (judge_held(it, lane) == 0) {
        own->slips_through = false;
        own->must_end = own->was_ended;
    }
    if (tells_end(it, lane, status)) return;
    if (status != (is_held ? ZELAMIKU_OK : ZELAMIKU_NOT_HELD)) search_fail("lane %u: exit %u answers %u", lane, own->object, status);
}

static void judge_waits(judge *it, uint32_t lane, uint32_t object) {
    judged_lane *own = begin_call(it, lane, it->of[lane].locks[object] > 0 ? WAITS : NO_CALL, object);
    own->put_down = own->locks[object];
}

static void judge_waited(judge *it, uint32_t lane, zelamiku_status status) {
    judged_lane *own = &it->of[lane];
    bool was_held = own->call == WAITS;
    uint64_t bit = (uint64_t)1 << lane;
    if (was_held && judge_is_end(it, status)) cut_off(it, lane);
    if (tells_end(it, lane, status)) return;
    if (!was_held && status == ZELAMIKU_NOT_HELD) return;
    bool is_refused = status == ZELAMIKU_BEHIND || (status == ZELAMIKU_DEVICE && it->has_trouble);
    is_refused |= status == ZELAMIKU_SECTION_FULL && may_be_full(it, lane);
    if (was_held && is_refused && !own->has_let_go) return;
    if (status != ZELAMIKU_OK) search_fail("lane %u: wait for %u answers %u", lane, own->object, status);
    if ((it->notified[own->object] & bit) == 0) search_fail("lane %u: wait for %u ends, and nobody has notified it", lane, own->object);
    it->notified[own->object] &= ~bit;
    take(it, lane, own->object, own->put_down);
}

static void judge_notified(judge *it, uint32_t lane, uint32_t object, zelamiku_status status, uint64_t lanes, bool is_all) {
    bool is_held = it->of[lane].locks[object] > 0;
    if (tells_end(it, lane, status)) return;
    if (status != (is_held ? ZELAMIKU_OK : ZELAMIKU_NOT_HELD)) search_fail("lane %u: notify %u answers %u", lane, object, status);
    uint64_t set = is_held ? it->set[object] : 0, cut = is_held ? it->cut[object] : 0, may_wait = set | cut;
    bool is_one = lanes == 0 ? set == 0 : (lanes & may_wait) == lanes && (lanes & (lanes - 1)) == 0;
    bool is_right = is_all ? (lanes & ~cut) == set : is_one;
    if (!is_right) search_fail("lane %u: notify %u wakes %llx, and %llx wait", lane, object, (unsigned long long)lanes, (unsigned long long)set);
    it->set[object] &= ~lanes;
    it->notified[object] |= lanes;
}

/* ---- fields ---- */

static void judge_loaded(judge *it, uint32_t lane, uint32_t field, zelamiku_status status, uint64_t value) {
    bool is_held = it->of[lane].locks[guard_of(field)] > 0;
    if (tells_end(it, lane, status)) return;
    if (status != (is_held ? ZELAMIKU_OK : ZELAMIKU_NOT_HELD)) search_fail("lane %u: load %u answers %u", lane, field, status);
    if (value == (is_held ? it->values[field] : 0)) return;
    search_fail("lane %u: field %u is %llu, and was stored as %llu", lane, field, (unsigned long long)value,
                (unsigned long long)it->values[field]);
}

static bool is_lasting(const judge *it, uint32_t field) {
    return field != PASSING || !it->has_transient;
}

static void note_store(judge *it, uint32_t lane, uint32_t field, uint64_t value) {
    if (it->count == it->room) it->stores = realloc(it->stores, (it->room = 2 * it->room + 256) * sizeof *it->stores);
    it->stores[it->count++] = (judged_store){lane, field, it->of[lane].ended + 1, value, it->values[field], false};
    it->values[field] = value;
    it->of[lane].has_stored = true;
    it->of[lane].is_lasting |= is_lasting(it, field);
    it->of[lane].records += is_lasting(it, field);
}

static void judge_stored(judge *it, uint32_t lane, uint32_t field, zelamiku_status status, uint64_t value) {
    bool is_held = it->of[lane].locks[guard_of(field)] > 0;
    if (tells_end(it, lane, status)) return;
    if (status == ZELAMIKU_OK && is_held) return note_store(it, lane, field, value);
    if (is_held && status == ZELAMIKU_SECTION_FULL && may_be_full(it, lane)) return;
    if (is_held || status != ZELAMIKU_NOT_HELD) search_fail("lane %u: store %u answers %u", lane, field, status);
}

/* From the last store to the first. */
static void take_back(judge *it, uint32_t lane) {
    for (size_t i = it->count; i-- > 0;) {
        judged_store store = it->stores[i];
        if (store.lane != lane || store.section != it->of[lane].ended + 1 || store.is_back) continue;
        it->stores[i].is_back = true;
        note_store(it, lane, store.field, store.before);
        it->stores[it->count - 1].is_back = true;
    }
}

static void judge_reverted(judge *it, uint32_t lane, zelamiku_status status) {
    bool is_open = judge_held(it, lane) > 0, can = it->reverts ? !it->of[lane].is_past : !it->of[lane].has_stored;
    if (tells_end(it, lane, status)) return;
    if (status != (!is_open ? ZELAMIKU_NOT_HELD : can ? ZELAMIKU_OK : ZELAMIKU_NOT_REVERTED)) search_fail("lane %u: revert answers %u", lane, status);
    if (status == ZELAMIKU_OK) take_back(it, lane);
}

static void judge_took(judge *it, uint32_t lane, zelamiku_status status, uint32_t slot) {
    bool is_held = it->of[lane].locks[2] > 0;
    uint32_t taken = 0;
    for (uint32_t other = 0; other < SLOTS; other++) taken += it->values[POOL + 1 + other] != 0;
    if (tells_end(it, lane, status)) return;
    if (!is_held && status == ZELAMIKU_NOT_HELD) return;
    if (status == ZELAMIKU_SECTION_FULL && may_be_full(it, lane)) return;
    if (is_held && status == (taken == SLOTS ? ZELAMIKU_POOL_EMPTY : ZELAMIKU_OK)) {
        if (status == ZELAMIKU_POOL_EMPTY) return;
        if (slot >= SLOTS || it->values[POOL + 1 + slot] != 0) search_fail("lane %u: slot %u was taken before", lane, slot);
        return note_store(it, lane, POOL + 1 + slot, 1);
    }
    search_fail("lane %u: take answers %u, and %u slots are taken", lane, status, taken);
}

static void judge_gave(judge *it, uint32_t lane, zelamiku_status status, uint32_t slot) {
    bool is_held = it->of[lane].locks[2] > 0, is_taken = it->values[POOL + 1 + slot] != 0;
    if (tells_end(it, lane, status)) return;
    zelamiku_status right = !is_held ? ZELAMIKU_NOT_HELD : is_taken ? ZELAMIKU_OK : ZELAMIKU_NOT_TAKEN;
    if (status == ZELAMIKU_SECTION_FULL && may_be_full(it, lane)) return;
    if (status != right) search_fail("lane %u: give %u answers %u", lane, slot, status);
    if (status == ZELAMIKU_OK) note_store(it, lane, POOL + 1 + slot, 0);
}

/* ---- what is durable ---- */

static void judge_awaits(judge *it, uint32_t lane, bool is_round, uint64_t deadline) {
    begin_call(it, lane, is_round ? AWAITS_ROUND : AWAITS, 0)->deadline = deadline;
}

static void judge_awaited(judge *it, uint32_t lane, zelamiku_status status, bool is_all, uint64_t sections) {
    judged_lane *own = &it->of[lane];
    if (status == ZELAMIKU_OK && (is_all || search_time() >= own->deadline)) own->must_end = false; /* they were durable before, or a last round is underway */
    if (tells_end(it, lane, status)) return;
    if (status == ZELAMIKU_OK && is_all && own->durable < sections) own->durable = sections;
    if (own->durable == own->ended) own->records = 0;
    bool is_right = status == ZELAMIKU_OK || (status == ZELAMIKU_DEVICE && it->has_trouble);
    if (!is_right) search_fail("lane %u: await answers %u", lane, status);
}

static void judge_asks(judge *it, uint32_t lane) {
    judged_lane *own = begin_call(it, lane, ASKS, 0);
    own->known = own->durable;
}

/* `earlier`: of the thread before */
static void judge_asked(judge *it, uint32_t lane, zelamiku_status status, uint64_t earlier, uint64_t durable) {
    judged_lane *own = &it->of[lane];
    uint64_t all = own->ended - earlier;
    bool is_trouble = status == ZELAMIKU_DEVICE && it->has_trouble;
    if (durable > all) search_fail("lane %u has ended %llu sections, and %llu are durable", lane, (unsigned long long)all, (unsigned long long)durable);
    if (earlier + durable < own->known) search_fail("lane %u is told fewer durable sections than before", lane);
    if (status == ZELAMIKU_OK && durable == all) own->must_end = false;
    if (durable > 0 && own->durable < earlier + durable) own->durable = earlier + durable;
    own->has_asked = durable < all;
    own->is_short -= own->is_short > 0;
    if (durable > 0 && durable == all && judge_held(it, lane) == 0) own->records = 0;
    if (tells_end(it, lane, status)) return;
    if (status != ZELAMIKU_OK && !is_trouble) search_fail("lane %u: ask answers %u", lane, status);
}

/* sleeps until its event is readable */
static void judge_listens(judge *it, uint32_t lane, uint64_t deadline) {
    judged_lane *own = &it->of[lane];
    own->call = LISTENS;
    own->deadline = deadline;
}

static void judge_listened(judge *it, uint32_t lane, bool is_readable) {
    judged_lane *own = &it->of[lane];
    own->call = NO_CALL;
    if (is_readable) own->is_short = 0;
    if (!is_readable && search_time() < own->deadline) search_fail("lane %u: its event isn't readable", lane);
}

static void judge_copies(judge *it, uint32_t lane) {
    (void)begin_call(it, lane, COPIES, 0);
}

/* How many sections are durable, by the library, without a step. */
static uint64_t all_durable(const judge *it) {
    zelamiku_stats stats = {.size = sizeof stats};
    bool was_quiet = search_be_quiet(true);
    zelamiku_status status = zelamiku_heap_stats(it->heap, &stats);
    (void)search_be_quiet(was_quiet);
    return status == ZELAMIKU_OK ? stats.sections : 0;
}

static uint64_t sum_of(const judge *it, bool stores_alone) {
    uint64_t sum = 0;
    for (uint32_t lane = 0; lane < it->lanes; lane++) sum += stores_alone ? it->of[lane].stored : it->of[lane].ended;
    return sum;
}

static bool may_lack_room(const judge *it, const judged_lane *own) {
    return own->records > 900 && all_durable(it) < sum_of(it, false);
}

static void judge_sleeper(judge *it, uint32_t lane, bool has_rounds) {
    judged_lane *own = &it->of[lane];
    uint32_t owner = own->call == ENTERS || own->call == WAITS ? it->owner[own->object] : ZELAMIKU_NOBODY;
    bool others_have = owner != ZELAMIKU_NOBODY && owner != lane, waits_for_rounds = has_rounds || judge_is_open(it);
    switch (own->call) {
    case ENTERS:
        if (others_have || (may_lack_room(it, own) && waits_for_rounds)) return;
        if (own->records > 900 && has_rounds) return; /* it naps still, and a round has made room meanwhile */
        search_fail("lane %u sleeps, though object %u is free", lane, own->object);
    case WAITS:
        if (others_have || (it->notified[own->object] >> lane & 1) == 0) return;
        search_fail("lane %u sleeps, though it was notified and object %u is free", lane, own->object);
    case AWAITS:
        if (waits_for_rounds) return;
        search_fail("lane %u waits for its sections, and no round comes", lane);
    case LISTENS:
        if (waits_for_rounds) return;
        search_fail("lane %u waits for its event, and no round comes", lane);
    case COPIES:
        if (has_rounds) return;
        search_fail("lane %u copies, and sleeps", lane);
    case AWAITS_ROUND:
        if (waits_for_rounds || all_durable(it) == sum_of(it, false)) return;
        search_fail("lane %u waits for a round, and none comes", lane);
    default: return;
    }
}

/* Nobody can go on now: whether each that sleeps has to. `has_rounds`: a round may come by itself before long. */
static void judge_sleepers(judge *it, bool has_rounds) {
    for (uint32_t lane = 0; lane < it->lanes; lane++) judge_sleeper(it, lane, has_rounds);
}

/* What the library counts, while threads go on; so many sections were told durable before. */
static uint64_t judge_durable(const judge *it) {
    uint64_t durable = 0;
    for (uint32_t lane = 0; lane < it->lanes; lane++) durable += it->of[lane].durable;
    return durable;
}

/* By their syncs. The helper has a lane, with room for all fields. */
static void judge_rounds(const judge *it, const zelamiku_stats *stats) {
    uint64_t one = stats->one_sync_rounds, two = stats->two_sync_rounds, four = stats->four_sync_rounds;
    bool is_right = it->is_journaled ? !it->is_narrow || stats->syncs == one : one == 0 && four == 0;
    if (!is_right || one + two + four > stats->rounds)
        search_fail("of %llu rounds with %llu syncs %llu took one, %llu two and %llu four", (unsigned long long)stats->rounds,
                    (unsigned long long)stats->syncs, (unsigned long long)one, (unsigned long long)two, (unsigned long long)four);
}

static void judge_stats(const judge *it, const zelamiku_stats *stats, uint64_t durable) {
    uint64_t ended = sum_of(it, false);
    for (uint32_t lane = 0; lane < it->lanes; lane++) ended += judge_held(it, lane) > 0; /* its last exit may be underway */
    bool is_right = stats->sections >= durable && stats->sections <= ended && stats->lent <= it->lanes && stats->entering <= it->lanes;
    if (!is_right) search_fail("stats tell %llu sections, %u lanes and %u that enter", (unsigned long long)stats->sections, stats->lent, stats->entering);
    judge_rounds(it, stats);
}

/* The same, and no thread is left. */
static void judge_alone(const judge *it) {
    zelamiku_stats stats = {.size = sizeof stats};
    if (it->ends != 0 || zelamiku_heap_stats(it->heap, &stats) != ZELAMIKU_OK) return;
    if (stats.awaiting > 0) search_fail("%u threads wait for rounds, and there are none", stats.awaiting);
    if (stats.entering > 0 || stats.lent > 0) search_fail("%u threads want monitors and %u have lanes; there are none", stats.entering, stats.lent);
}

/* All that has stored is durable, a good while after. */
static void judge_quiet(judge *it) {
    if (judge_is_open(it) || it->ends != 0) return;
    uint64_t durable = all_durable(it), stored = sum_of(it, true);
    if (durable >= stored) return;
    search_fail("%llu sections are durable, and %llu have stored; no round comes", (unsigned long long)durable, (unsigned long long)stored);
}

/* ---- what a crash leaves ---- */

/* The value that each field has by the sections that were kept. */
static void fold_stores(const judge *it, const zelamiku_told *told, uint64_t *values) {
    for (uint32_t field = 0; field < FIELDS; field++) values[field] = field < POOL ? FIRST_VALUE : 0;
    for (size_t i = 0; i < it->count; i++) {
        const judged_store *store = &it->stores[i];
        if (is_lasting(it, store->field) && store->section <= told->kept[store->lane]) values[store->field] = store->value;
    }
}

static void check_fields(zelamiku_handle *session, const uint64_t *values) {
    for (uint32_t field = 0; field < POOL; field++) {
        uint64_t value = 0;
        if (zelamiku_load(session, field, &value) != ZELAMIKU_OK) search_fail("a field of the image can't be loaded");
        if (value == values[field]) continue;
        search_fail("after a crash field %u is %llu, and the sections that were kept make %llu", field, (unsigned long long)value,
                    (unsigned long long)values[field]);
    }
}

/* The slots that are free are those that can be taken. */
static void check_pool(zelamiku_handle *session, const uint64_t *values) {
    uint64_t found = 0;
    uint32_t slot;
    while (zelamiku_pool_take(session, POOL, SLOTS, &slot) == ZELAMIKU_OK) found |= (uint64_t)1 << slot;
    for (slot = 0; slot < SLOTS; slot++)
        if ((found >> slot & 1) != (values[POOL + 1 + slot] == 0)) search_fail("after a crash slot %u isn't as the sections say", slot);
}

static void check_image(zelamiku_handle *heap, const uint64_t *values) {
    zelamiku_handle session = ZELAMIKU_NONE;
    if (zelamiku_session(heap, &session) != ZELAMIKU_OK) search_fail("no session of the image");
    for (uint32_t object = 0; object < OBJECTS; object++)
        if (zelamiku_try_enter(&session, object) != ZELAMIKU_OK) search_fail("an object of the image can't be entered");
    check_fields(&session, values);
    check_pool(&session, values);
    zelamiku_free(&session);
}

/* How many sections of each lane no crash loses from now on; `is_all`: after a close. */
static void judge_kept(const judge *it, bool is_all, uint64_t *least) {
    for (uint32_t lane = 0; lane < it->lanes; lane++) least[lane] = is_all ? it->of[lane].ended : it->of[lane].durable;
}

/* Runs that differ by little leave the same bytes by the same stores, again and again: these have been looked at. */
static bool is_looked_at(const judge *it, const uint8_t *image, size_t size, const uint64_t *least) {
    static uint8_t last[1 << 18];
    static judged_store stores[256];
    static uint64_t lasts_least[MOST_LANES];
    static size_t last_size, last_count;
    size_t stored = it->count * sizeof *stores, told = it->lanes * sizeof *least;
    if (size > sizeof last || it->count > sizeof stores / sizeof *stores) return false;
    bool is_same = last_size == size && last_count == it->count && memcmp(lasts_least, least, told) == 0 &&
                   (stored == 0 || memcmp(stores, it->stores, stored) == 0) && memcmp(last, image, size) == 0;
    if (is_same) return true;
    last_size = size;
    last_count = it->count;
    memcpy(last, image, size);
    memcpy(lasts_least, least, told);
    if (stored > 0) memcpy(stores, it->stores, stored);
    return false;
}

/* The bytes that a crash leaves, or a copy, opened anew: they have to have so many sections of each lane. */
static void judge_image(judge *it, const uint8_t *image, size_t size, const uint64_t *least) {
    static zelamiku_told told;
    zelamiku_dropped_section none = {0};
    zelamiku_handle again = ZELAMIKU_NONE;
    uint64_t values[FIELDS];
    bool is_made = it->heap.number != 0;
    if (is_made && is_looked_at(it, image, size, least)) return;
    bool was_quiet = search_be_quiet(true);
    zelamiku_status opened = zelamiku_open(&again, image, size, it->lanes, ZELAMIKU_LEAST_RING, &told, &none, 0);
    if (opened == ZELAMIKU_OK) {
        for (uint32_t lane = 0; lane < it->lanes; lane++)
            if (told.kept[lane] < least[lane])
                search_fail("lane %u was told that %llu sections are durable, and a crash leaves %llu", lane, (unsigned long long)least[lane],
                            (unsigned long long)told.kept[lane]);
        fold_stores(it, &told, values);
        check_image(&again, values);
        zelamiku_free(&again);
    } else if (is_made) {
        search_fail("what a crash leaves can't be opened: %u", opened);
    }
    (void)search_be_quiet(was_quiet);
}

/* The same of the heap's device or file. If it has a journal, what counts is the image that the journal stands for. */
static void judge_device(judge *it, const uint8_t *bytes, size_t size, const uint64_t *least) {
    static uint8_t image[1 << 21];
    zelamiku_handle journal = ZELAMIKU_NONE;
    uint64_t length = 0;
    if (!it->is_journaled) return judge_image(it, bytes, size, least);
    zelamiku_status opened = zelamiku_journal_open(&journal, bytes, size, &length);
    if (opened != ZELAMIKU_OK && it->heap.number == 0) return;
    if (opened != ZELAMIKU_OK) search_fail("the journal that a crash leaves can't be opened: %u", opened);
    bool is_read = length <= sizeof image && zelamiku_journal_read(&journal, 0, image, length) == ZELAMIKU_OK;
    zelamiku_free(&journal);
    if (!is_read) search_fail("the image behind a journal can't be read");
    judge_image(it, image, length, least);
}
