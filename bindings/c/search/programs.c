/* Each program is a list of deeds over one heap or two, by a seed. A thread does its own, in their order. A deed that can't be done where it
 * stands (an exit of what isn't held, since an enter before was refused) is left out or answers as the judge says, so each part of a program is
 * one too. When no thread can go on, and by the judge none can, main stops the heaps, so that all come back. */

#define MUST(is_so, what) do { if (!(is_so)) search_fail("%s", what); } while (0)

typedef struct {
    zelamiku_thread own[HEAPS], old[HEAPS]; /* `old`: the handle before */
    uint32_t lane[HEAPS];
    bool has_lane[HEAPS], is_out[HEAPS];
    int event[HEAPS]; /* or -1 */
    int task;
} worker;

static const program *current;
static judge judges[HEAPS];
static device devices[HEAPS];
static worker workers[MOST_THREADS];
static uint64_t next_value;
static uint32_t left; /* threads that have yet to come back */
static bool is_stopping, is_forking;
static bool was_lost[HEAPS]; /* a thread was told so: no lane is lent any more, and none is given back as if nothing were */
static zelamiku_field fields[FIELDS];
static zelamiku_plan plan;
static uint32_t copying[COPIES_OF], copies_begun[COPIES_OF], opening, opens_begun;
static bool is_opened_again; /* the file: what is in it is another opening's */
static uint64_t programs_crashes, programs_stuck; /* looked at; and in which nobody could go on, as the model of monitors says too */
static uint64_t programs_journaled, programs_one_sync; /* over journals; and rounds of one sync in these */

/* ---- ends of heaps ---- */

static void device_fails(void *of, device_fault fault) {
    judge *it = of;
    it->has_trouble = true;
    if (fault == SYNC_FAILS) judge_ends(it, ZELAMIKU_LOST);
}

typedef void judging(judge *it, const uint8_t *bytes, size_t size, const uint64_t *least);

static void look_at_file(judge *it, const char *name, judging *judged, const uint64_t *least) {
    static uint8_t bytes[1 << 20];
    int file = open(name, O_RDONLY | O_CLOEXEC);
    ssize_t size = file < 0 ? -1 : read(file, bytes, sizeof bytes);
    MUST(size > 0 && close(file) == 0, "a file can't be read");
    judged(it, bytes, (size_t)size, least);
}

static bool is_in_file(uint32_t heap) {
    return heap == 0 && current->is_in_file;
}

static void look_at_crash(uint32_t heap, bool is_all) {
    uint64_t least[MOST_LANES];
    programs_crashes++;
    judge_kept(&judges[heap], is_all, least);
    if (!is_in_file(heap))
        judge_device(&judges[heap], left_by_crash(&devices[heap]), devices[heap].size, least);
    else if (!is_opened_again && opening == 0) /* else an opening counts anew, and may not have come back yet */
        look_at_file(&judges[heap], "heap", judge_device, least);
}

static void device_crashes(void *of) {
    look_at_crash((uint32_t)((judge *)of - judges), false);
}

/* The log hook, which lasts. */
static void note_line(void *of, uint32_t level, const char *text) {
    const device *it = of;
    (void)level;
    search_step();
    if (it->is_over) search_fail("the log hook is called after the heap's end: %s", text);
}

static void end_heap(uint32_t heap, deed_kind kind) {
    judge *it = &judges[heap];
    zelamiku_status why = kind == ABANDON ? ZELAMIKU_ABANDONED : ZELAMIKU_CLOSED;
    judged_sections before;
    judge_note_sections(it, &before);
    judge_ends(it, why);
    zelamiku_status status = kind == CLOSE ? zelamiku_heap_close(it->heap) : zelamiku_heap_stop(it->heap, why);
    bool is_refused = kind == CLOSE && (status == ZELAMIKU_RUNNING || (status == ZELAMIKU_DEVICE && it->has_trouble));
    bool has_lost = kind != CLOSE && status == ZELAMIKU_LOST && it->has_trouble; /* nobody makes its last round's write again */
    bool is_right = status == ZELAMIKU_OK || judge_is_end(it, status) || has_lost || is_refused;
    if (!is_right) search_fail("the end of heap %u answers %u", heap, status);
    judge_ended(it, why, is_refused);
    devices[heap].is_over |= !is_refused;
    if (status != ZELAMIKU_OK) return;
    if (kind == CLOSE) judge_closed(it, &before);
    judge_settled(it, &before);
}

/* ---- what threads do ---- */

static zelamiku_progress progress_of(zelamiku_thread thread) {
    zelamiku_progress found = {.size = sizeof found};
    (void)!zelamiku_thread_progress(thread, &found);
    return found;
}

static bool takes_end(worker *own, uint32_t heap, zelamiku_status status) {
    if (!judge_is_end(&judges[heap], status)) return false;
    own->is_out[heap] = true;
    was_lost[heap] |= status == ZELAMIKU_LOST;
    return true;
}

static void enter(worker *own, uint32_t heap, uint32_t object, deed_kind kind, uint64_t time) {
    judge *it = &judges[heap];
    uint64_t deadline = kind == ENTER ? NEVER : kind == TRY ? 0 : search_time() + time;
    judge_enters(it, own->lane[heap], object, deadline);
    zelamiku_status status = kind == ENTER ? zelamiku_thread_enter(own->own[heap], object)
                                           : zelamiku_thread_enter_until(own->own[heap], object, deadline);
    judge_entered(it, own->lane[heap], status);
    if (status == ZELAMIKU_OK) it->of[own->lane[heap]].is_short = 0;
    if (kind == TRY && status == ZELAMIKU_BEHIND && own->event[heap] >= 0) it->of[own->lane[heap]].is_short = 2;
    (void)takes_end(own, heap, status);
}

static void exit_one(worker *own, uint32_t heap, uint32_t object) {
    judge_exits(&judges[heap], own->lane[heap], object);
    zelamiku_status status = zelamiku_thread_exit(own->own[heap], object);
    judge_exited(&judges[heap], own->lane[heap], status);
    (void)takes_end(own, heap, status);
}

static void load(worker *own, uint32_t heap, uint32_t field) {
    uint64_t value = 1;
    zelamiku_status status = zelamiku_thread_load(own->own[heap], field, &value);
    judge_loaded(&judges[heap], own->lane[heap], field, status, value);
    (void)takes_end(own, heap, status);
}

static bool store(worker *own, uint32_t heap, uint32_t field) {
    uint64_t value = ++next_value;
    zelamiku_status status = zelamiku_thread_store(own->own[heap], field, value);
    judge_stored(&judges[heap], own->lane[heap], field, status, value);
    return !takes_end(own, heap, status) && status == ZELAMIKU_OK;
}

/* Many stores, of which the first is a step alone. */
static void fill(worker *own, uint32_t heap, uint32_t object, uint64_t count) {
    if (!store(own, heap, FILLER_OF + object)) return;
    (void)search_be_quiet(true);
    for (uint64_t i = 1; i < count && judges[heap].of[own->lane[heap]].locks[object] > 0; i++)
        if (!store(own, heap, FILLER_OF + object)) break;
    (void)search_be_quiet(false);
}

/* Waits until somebody has signalled: for `patience` notifications at most. */
static void wait_for(worker *own, uint32_t heap, uint32_t object, uint64_t patience) {
    judge *it = &judges[heap];
    bool is_held = it->of[own->lane[heap]].locks[object] > 0;
    for (; patience > 0 && (!is_held || it->signals[object] == 0); patience--) {
        judge_waits(it, own->lane[heap], object);
        zelamiku_status status = zelamiku_thread_wait(own->own[heap], object);
        judge_waited(it, own->lane[heap], status);
        if (takes_end(own, heap, status) || status != ZELAMIKU_OK) return;
    }
    if (is_held && it->signals[object] > 0) it->signals[object]--;
}

static void notify(worker *own, uint32_t heap, uint32_t object, bool is_all) {
    judge *it = &judges[heap];
    uint64_t lanes = 0;
    if (it->of[own->lane[heap]].locks[object] > 0) it->signals[object] += is_all ? 2 : 1;
    zelamiku_status status = zelamiku_thread_notify(own->own[heap], object, is_all, &lanes);
    judge_notified(it, own->lane[heap], object, status, lanes, is_all);
    (void)takes_end(own, heap, status);
}

static void take_or_give(worker *own, uint32_t heap, uint32_t slot, bool takes) {
    uint32_t taken = 0;
    zelamiku_status status = takes ? zelamiku_thread_take(own->own[heap], POOL, SLOTS, &taken)
                                   : zelamiku_thread_give(own->own[heap], POOL, SLOTS, slot);
    if (takes)
        judge_took(&judges[heap], own->lane[heap], status, taken);
    else
        judge_gave(&judges[heap], own->lane[heap], status, slot);
    (void)takes_end(own, heap, status);
}

static void revert(worker *own, uint32_t heap) {
    zelamiku_status status = zelamiku_thread_revert(own->own[heap]);
    judge_reverted(&judges[heap], own->lane[heap], status);
    (void)takes_end(own, heap, status);
}

static void await(worker *own, uint32_t heap, deed_kind kind, uint64_t time) {
    judge *it = &judges[heap];
    uint32_t lane = own->lane[heap];
    if (judge_held(it, lane) > 0) return;
    uint64_t earlier = progress_of(own->own[heap]).earlier, all = it->of[lane].ended - earlier, some = all > 1 ? all - 1 : all;
    bool is_all = true;
    uint64_t deadline = kind == AWAIT_UNTIL ? search_time() + time : ZELAMIKU_NO_DEADLINE;
    judge_awaits(it, lane, false, deadline);
    zelamiku_status status = kind == AWAIT ? zelamiku_thread_await(own->own[heap])
                                           : zelamiku_thread_await_until(own->own[heap], kind == AWAIT_SOME ? some : ZELAMIKU_ALL_SECTIONS,
                                                                         deadline, &is_all);
    bool is_early = status == ZELAMIKU_OK && !is_all && search_time() < deadline;
    if (is_early) search_fail("lane %u: await comes back before its deadline", lane);
    judge_awaited(it, lane, status, is_all, earlier + (kind == AWAIT_SOME ? some : all));
    if (status == ZELAMIKU_OK && is_all && search_chance() % 8 == 1) look_at_crash(heap, false);
    (void)takes_end(own, heap, status);
}

static void await_round(worker *own, uint32_t heap, uint64_t time) {
    judge *it = &judges[heap];
    uint64_t rounds = 0, deadline = search_time() + time;
    if (judge_held(it, own->lane[heap]) > 0) return;
    zelamiku_stats stats = {.size = sizeof stats};
    bool must_end = it->has_ended;
    zelamiku_status status = zelamiku_heap_stats(it->heap, &stats);
    if (status != ZELAMIKU_OK) return;
    judge_awaits(it, own->lane[heap], true, deadline);
    status = zelamiku_heap_await_round(it->heap, stats.rounds, deadline, &rounds);
    it->of[own->lane[heap]].call = NO_CALL;
    bool is_right = (status == ZELAMIKU_OK && !must_end) || judge_is_end(it, status) || (status == ZELAMIKU_DEVICE && it->has_trouble);
    if (!is_right && !(status == ZELAMIKU_OK && rounds > stats.rounds)) search_fail("await a round answers %u", status);
    if (status == ZELAMIKU_OK && rounds <= stats.rounds && search_time() < deadline) search_fail("await a round comes back before its deadline");
}

/* ---- event loops ---- */

static void make_event(worker *own, uint32_t heap) {
    zelamiku_status status = zelamiku_thread_event(own->own[heap], &own->event[heap]);
    if (status != ZELAMIKU_OK || own->event[heap] < 0) search_fail("event answers %u", status);
}

static void ask_all(worker *own, uint32_t heap) {
    judge *it = &judges[heap];
    uint32_t lane = own->lane[heap];
    uint64_t durable = 0, earlier = progress_of(own->own[heap]).earlier;
    judge_asks(it, lane);
    zelamiku_status status = zelamiku_thread_ask(own->own[heap], &durable);
    judge_asked(it, lane, status, earlier, durable);
    if (status == ZELAMIKU_OK && search_chance() % 8 == 1) look_at_crash(heap, false);
    (void)takes_end(own, heap, status);
}

/* As a loop that has nothing else to do: sleeps until its event is readable, and asks, until it waits for nothing. */
static void listen_for(worker *own, uint32_t heap, uint64_t time) {
    judge *it = &judges[heap];
    judged_lane *lane = &it->of[own->lane[heap]];
    uint64_t deadline = time > 0 ? search_time() + time : NEVER;
    if (own->event[heap] < 0 || judge_held(it, own->lane[heap]) > 0) return;
    for (int rings = 0; (lane->has_asked || lane->is_short > 0) && !own->is_out[heap] && search_time() < deadline; rings++) {
        if (rings > 1000) search_fail("an event is readable again and again");
        judge_listens(it, own->lane[heap], deadline);
        bool is_readable = search_watch(own->event[heap], deadline);
        judge_listened(it, own->lane[heap], is_readable);
        ask_all(own, heap);
    }
}

/* ---- copies, and the file ---- */

static void copy(worker *own, uint32_t heap, uint32_t to) {
    static const char *const NAMES[COPIES_OF] = {"copy", "other copy"};
    judge *it = &judges[heap];
    uint64_t least[MOST_LANES] = {0};
    bool is_alone = copying[to]++ == 0, must_end = it->has_ended;
    uint32_t begun = ++copies_begun[to];
    judge_kept(it, false, least);
    judge_copies(it, own->lane[heap]);
    zelamiku_status status = zelamiku_heap_copy(it->heap, NAMES[to]);
    it->of[own->lane[heap]].call = NO_CALL;
    copying[to]--;
    is_alone &= begun == copies_begun[to];
    if (judge_is_end(it, status)) return;
    bool is_other = is_in_file(heap) ? status == ZELAMIKU_BUSY && !is_alone : status == ZELAMIKU_DEVICE;
    if (must_end || (status != ZELAMIKU_OK && !is_other)) search_fail("copy answers %u", status);
    if (status != ZELAMIKU_OK) return;
    programs_crashes++;
    if (!is_alone) memset(least, 0, sizeof least); /* another copy, that began before, may be there */
    look_at_file(it, NAMES[to], judge_image, least); /* it has no journal */
}

/* The file is opened once more: it is BUSY, unless its heap has ended. */
static void open_again(uint32_t heap) {
    judge *it = &judges[heap];
    zelamiku_heap other;
    zelamiku_report report = {.size = sizeof report}; /* two may be at it */
    uint64_t least[MOST_LANES];
    bool may_be_over = it->ends != 0, must_be_over = it->has_ended, is_lone = opening++ == 0;
    uint32_t begun = ++opens_begun;
    judge_kept(it, false, least);
    zelamiku_plan unlogged = plan;
    unlogged.log = NULL;
    zelamiku_status status = zelamiku_heap_open(&other, "heap", &unlogged, &report);
    bool is_first = !is_opened_again; /* the next one finds what this one has left */
    is_opened_again |= status == ZELAMIKU_OK;
    is_lone &= begun == opens_begun;
    may_be_over |= it->ends != 0;
    bool is_right = status == ZELAMIKU_OK ? may_be_over : status == ZELAMIKU_BUSY && !(must_be_over && is_lone);
    if (!is_right) search_fail("a second open of the file answers %u", status);
    for (uint32_t lane = 0; status == ZELAMIKU_OK && is_first && lane < it->lanes; lane++)
        if (report.kept[lane] < least[lane]) search_fail("an open keeps fewer sections of lane %u than were told durable", lane);
    if (status == ZELAMIKU_OK && (status = zelamiku_heap_close(other)) != ZELAMIKU_OK) search_fail("close of a second open answers %u", status);
    opening--;
}

/* ---- forks ---- */

static void must_be_forked(const char *call, zelamiku_status status) {
    if (status != ZELAMIKU_FORKED) search_fail("%s answers %u in a child that was forked", call, status);
}

static void ask_heap_in_child(uint32_t heap) {
    zelamiku_heap of = judges[heap].heap;
    zelamiku_stats stats = {.size = sizeof stats};
    zelamiku_wait waits[MOST_LANES];
    zelamiku_thread thread;
    uint64_t rounds;
    size_t told;
    must_be_forked("stats", zelamiku_heap_stats(of, &stats));
    must_be_forked("waits", zelamiku_heap_waits(of, waits, MOST_LANES, &told));
    must_be_forked("await a round", zelamiku_heap_await_round(of, UINT64_MAX - 1, 1, &rounds));
    must_be_forked("begin", zelamiku_thread_begin(&thread, of));
    must_be_forked("copy", zelamiku_heap_copy(of, "copy of a child"));
    must_be_forked("stop", zelamiku_heap_stop(of, ZELAMIKU_CLOSED));
    must_be_forked("close", zelamiku_heap_close(of));
}

static void ask_lane_in_child(zelamiku_thread of, int event) {
    uint64_t value;
    int descriptor;
    zelamiku_sight sight;
    if (event >= 0 && fcntl(event, F_GETFD) != -1) search_fail("an event is open in a child that was forked");
    must_be_forked("enter", zelamiku_thread_enter(of, 0));
    must_be_forked("load", zelamiku_thread_load(of, 0, &value));
    must_be_forked("store", zelamiku_thread_store(of, 0, 1));
    must_be_forked("exit", zelamiku_thread_exit(of, 0));
    must_be_forked("wait", zelamiku_thread_wait(of, 0));
    must_be_forked("notify", zelamiku_thread_notify(of, 0, false, NULL));
    must_be_forked("look", zelamiku_thread_look(of, 0, &sight));
    must_be_forked("revert", zelamiku_thread_revert(of));
    must_be_forked("ask", zelamiku_thread_ask(of, &value));
    must_be_forked("event", zelamiku_thread_event(of, &descriptor));
    must_be_forked("end", zelamiku_thread_end(of));
}

static void ask_in_child(const worker *own) {
    search_be_alone();
    for (uint32_t heap = 0; heap < current->heaps; heap++) {
        ask_heap_in_child(heap);
        if (own->has_lane[heap]) ask_lane_in_child(own->own[heap], own->event[heap]);
    }
}

/* A child is forked, in which each call on these heaps is refused; the parent goes on. While one forks nobody else does: the system's fork has a
 * lock of its own meanwhile. */
static void fork_once(const worker *own) {
    int status = 0;
    if (is_forking) return;
    is_forking = true;
    bool was_quiet = search_be_quiet(true);
    pid_t child = fork();
    if (child == 0) {
        ask_in_child(own);
        _exit(0);
    }
    (void)search_be_quiet(was_quiet);
    is_forking = false;
    MUST(child > 0 && waitpid(child, &status, 0) == child, "no child");
    if (status != 0) _exit(3); /* it has told */
}

/* ---- lives of lanes ---- */

static void begin_lane(worker *own, uint32_t heap) {
    judge *it = &judges[heap];
    bool must_end = it->has_ended || was_lost[heap];
    zelamiku_status status = zelamiku_thread_begin(&own->own[heap], it->heap);
    own->has_lane[heap] = status == ZELAMIKU_OK;
    if (takes_end(own, heap, status)) return;
    if (status == ZELAMIKU_NONE_LEFT && current->lanes < current->threads) return;
    if (status != ZELAMIKU_OK || must_end) search_fail("begin answers %u", status);
    own->lane[heap] = progress_of(own->own[heap]).lane;
    if (own->lane[heap] >= it->lanes) search_fail("a lane that isn't: %u", own->lane[heap]);
    judge_lent(it, own->lane[heap]);
}

static void end_lane(worker *own, uint32_t heap) {
    judge *it = &judges[heap];
    if (!own->has_lane[heap]) return;
    uint32_t lane = own->lane[heap], held = judge_held(it, lane);
    bool must_end = it->has_ended || was_lost[heap];
    own->old[heap] = own->own[heap];
    own->event[heap] = -1;
    zelamiku_status status = zelamiku_thread_end(own->own[heap]);
    own->has_lane[heap] = false;
    if (takes_end(own, heap, status)) return;
    if (status != ZELAMIKU_OK || held > 0 || must_end) search_fail("end answers %u, with %u locks held", status, held);
}

/* Any thread may ask of any handle, also of one that has ended. */
static void ask(const worker *of, uint32_t heap) {
    zelamiku_thread asked[] = {of->own[heap], of->old[heap]};
    for (int i = 0; i < 2; i++) {
        zelamiku_progress before = progress_of(asked[i]), now = progress_of(asked[i]);
        bool is_all = false;
        if (now.lane != ZELAMIKU_NOBODY && now.lane >= judges[heap].lanes) search_fail("a lane that isn't: %u", now.lane);
        if (now.durable > now.sections) search_fail("%llu sections are durable of %llu", (unsigned long long)now.durable, (unsigned long long)now.sections);
        if (now.sections < before.sections && now.sections != 0) search_fail("a thread has fewer sections than before");
        if (search_chance() % 2 == 1) (void)!zelamiku_thread_await_until(asked[i], 1, 1, &is_all);
    }
}

static void look_around(worker *own, uint32_t heap, deed_kind kind, uint32_t object) {
    zelamiku_stats stats = {.size = sizeof stats};
    zelamiku_wait waits[MOST_LANES];
    zelamiku_sight sight;
    size_t told = 0;
    uint64_t durable = judge_durable(&judges[heap]);
    if (kind == STATS && zelamiku_heap_stats(judges[heap].heap, &stats) == ZELAMIKU_OK) judge_stats(&judges[heap], &stats, durable);
    if (kind == WAITS_OF) (void)!zelamiku_heap_waits(judges[heap].heap, waits, MOST_LANES, &told);
    if (kind != LOOK) return;
    zelamiku_status status = zelamiku_thread_look(own->own[heap], object, &sight);
    if (takes_end(own, heap, status)) return;
    bool is_ours = judges[heap].of[own->lane[heap]].locks[object] > 0;
    bool is_right = status == ZELAMIKU_OK && (sight.owner == own->lane[heap]) == is_ours;
    if (!is_right) search_fail("look at %u answers %u, owner %u", object, status, sight.owner);
}

static void renew(worker *own, uint32_t heap) {
    if (judge_held(&judges[heap], own->lane[heap]) > 0) return;
    end_lane(own, heap);
    if (!own->is_out[heap]) begin_lane(own, heap);
}

/* ---- threads ---- */

static void do_one(worker *own, const deed *it) {
    uint32_t heap = it->heap;
    if (it->kind == NAP) return search_nap(it->number);
    if (it->kind == ASK) return ask(&workers[it->object % current->threads], heap);
    if (it->kind == CLOSE || it->kind == STOP || it->kind == ABANDON) return end_heap(heap, it->kind);
    if (it->kind == OPEN_AGAIN) return open_again(heap);
    if (it->kind == FORK) return fork_once(own);
    if (own->is_out[heap] || !own->has_lane[heap]) return;
    switch (it->kind) {
    case ENTER: case TRY: case UNTIL: return enter(own, heap, it->object, it->kind, it->number);
    case EXIT: return exit_one(own, heap, it->object);
    case LOAD: return load(own, heap, it->object);
    case STORE: (void)store(own, heap, it->object); return;
    case FILL: return fill(own, heap, it->object, it->number);
    case WAIT: return wait_for(own, heap, it->object, it->number);
    case NOTIFY: case NOTIFY_ALL: return notify(own, heap, it->object, it->kind == NOTIFY_ALL);
    case TAKE: case GIVE: return take_or_give(own, heap, it->object, it->kind == TAKE);
    case REVERT: return revert(own, heap);
    case AWAIT: case AWAIT_UNTIL: case AWAIT_SOME: return await(own, heap, it->kind, it->number);
    case AWAIT_ROUND: return await_round(own, heap, it->number);
    case RENEW: return renew(own, heap);
    case EVENT: return make_event(own, heap);
    case ASK_ALL: return ask_all(own, heap);
    case LISTEN: return listen_for(own, heap, it->number);
    case COPY: return copy(own, heap, it->object);
    default: look_around(own, heap, it->kind, it->object);
    }
}

/* What is held still is exited, so that what a part of a program leaves open is closed. */
static void exit_all(worker *own, uint32_t heap) {
    for (uint32_t object = OBJECTS; object-- > 0;)
        while (!own->is_out[heap] && own->has_lane[heap] && judges[heap].of[own->lane[heap]].locks[object] > 0) exit_one(own, heap, object);
}

static void *work(void *argument) {
    worker *own = argument;
    uint32_t number = (uint32_t)(own - workers);
    for (uint32_t heap = 0; heap < current->heaps && !current->is_small; heap++) begin_lane(own, heap);
    for (uint32_t i = current->first; i < current->count; i++)
        if (current->deeds[i].thread == number && !current->deeds[i].is_left_out) do_one(own, &current->deeds[i]);
    for (uint32_t heap = 0; heap < current->heaps; heap++) exit_all(own, heap);
    for (uint32_t heap = 0; heap < current->heaps && !current->is_small; heap++) end_lane(own, heap);
    if (--left == 0) search_let(0);
    return NULL;
}

/* ---- a run ---- */

/* Nobody can go on. Where the judge says so too, main stops the heaps. */
static bool is_stuck(void) {
    for (uint32_t heap = 0; heap < current->heaps; heap++) judge_sleepers(&judges[heap], false);
    for (uint32_t heap = 0; heap < current->heaps; heap++) judge_quiet(&judges[heap]);
    if (is_stopping || left == 0) return false;
    is_stopping = true;
    programs_stuck++;
    search_let(0);
    return true;
}

/* The helper of a heap sleeps until a time, and nobody can go on before: no thread waits that a ring would have helped, nor
 * what a round has left. */
static void time_goes_on(uint64_t nanoseconds) {
    for (uint32_t heap = 0; heap < current->heaps; heap++) {
        bool is_soon = nanoseconds < 150000, has_rounds = is_soon || devices[heap].in_call > 0 || judges[heap].has_trouble;
        judge_sleepers(&judges[heap], has_rounds);
        if (current->heaps == 1 && searched_is_bounded && !has_rounds && judges[heap].ends == 0)
            search_fail("a round has reached its bound, and the next one doesn't come at once");
    }
}

/* Where no field is, and nothing is kept, stores are written out too. */
static bool has_transient(void) {
    return current->seed % 2 == 0;
}

static void make_plan(void) {
    for (uint32_t field = 0; field < POOL; field++)
        fields[field] = (zelamiku_field){field % OBJECTS, field % OBJECTS, FIRST_VALUE, field == PASSING && has_transient()};
    fields[PASSING].owner = fields[PASSING].guard = 0;
    MUST(zelamiku_pool_fields(2, fields + POOL, FIELDS - POOL) == ZELAMIKU_OK, "no pool");
    plan = (zelamiku_plan){.size = sizeof plan, .fields = fields, .count = FIELDS, .objects = OBJECTS, .lanes = current->lanes, .capacity = current->capacity,
                           .ring = current->ring, .linger = current->linger, .reverts = current->reverts, .log = note_line,
                           .atomic_sectors = current->is_journaled};
}

static void make_file(judge *it) {
    static const char *const NAMES[] = {"heap", "copy", "other copy"};
    for (size_t i = 0; i < sizeof NAMES / sizeof *NAMES; i++) (void)unlink(NAMES[i]);
    MUST(zelamiku_heap_open(&it->heap, "heap", &plan, NULL) == ZELAMIKU_OK, zelamiku_heap_failure(NULL));
}

static void make_heap(uint32_t heap) {
    judge *it = &judges[heap];
    judge_begin(it, current, has_transient());
    devices[heap].in_call = 0;
    devices[heap].is_over = false;
    plan.log_context = &devices[heap];
    was_lost[heap] = false;
    if (is_in_file(heap)) return make_file(it);
    device *on = &devices[heap];
    on->fault = NEVER_FAILS;
    on->fails = device_fails;
    on->crashes = device_crashes;
    on->of = it;
    on->keeps_sectors = current->is_journaled;
    device_begin(on, 4096 + 24 * FIELDS + 16 * (uint64_t)(current->lanes + 1) * current->capacity + (current->is_journaled ? JOURNAL : 0));
    zelamiku_device functions = device_functions(on);
    zelamiku_plan on_device = plan;
    on_device.device = &functions;
    MUST(zelamiku_heap_open(&it->heap, "searched", &on_device, NULL) == ZELAMIKU_OK, zelamiku_heap_failure(NULL));
    /* The opening's own calls don't fail. */
    on->calls = 0;
    on->fault_at = current->fault_at;
    on->fault_ends = current->fault_at + current->fault_for;
    on->fault = heap == 0 ? current->fault : NEVER_FAILS;
}

/* The heap has ended: looks at its rounds, and counts those of one sync. */
static void look_at_rounds(const judge *it) {
    zelamiku_stats stats = {.size = sizeof stats};
    bool was_quiet = search_be_quiet(true);
    MUST(zelamiku_heap_stats(it->heap, &stats) == ZELAMIKU_OK, "no stats after the heap's end");
    (void)search_be_quiet(was_quiet);
    judge_rounds(it, &stats);
    programs_one_sync += stats.one_sync_rounds;
}

/* The heap is closed, if nobody has ended it; and what it leaves is as the judge says. */
static void close_heap(uint32_t heap) {
    judge *it = &judges[heap];
    bool is_first = it->ends == 0;
    zelamiku_status status = ZELAMIKU_DEVICE;
    judge_ends(it, ZELAMIKU_CLOSED);
    for (int tries = 0; status == ZELAMIKU_DEVICE && tries < 50; tries++) status = zelamiku_heap_close(it->heap);
    bool is_closed = status == ZELAMIKU_OK && is_first;
    if (is_first && !it->has_trouble && !is_closed) search_fail("close answers %u", status);
    bool is_end = status == ZELAMIKU_OK || judge_is_end(it, status) || status == ZELAMIKU_NOTHING;
    if (status == ZELAMIKU_RUNNING || !is_end) status = zelamiku_heap_stop(it->heap, ZELAMIKU_CLOSED);
    look_at_crash(heap, is_closed);
    look_at_rounds(it);
}

static void program_run(program *it, const search_schedule *schedule) {
    current = it;
    searched_processors = it->processors;
    memset(workers, 0, sizeof workers);
    next_value = 100;
    left = it->threads;
    is_stopping = is_forking = is_opened_again = searched_is_bounded = false;
    for (uint32_t i = 0; i < MOST_THREADS * HEAPS; i++) workers[i / HEAPS].event[i % HEAPS] = -1;
    memset(copying, 0, sizeof copying);
    opening = 0;
    make_plan();
    search_begin(schedule, it->seed < SMALL_PROGRAMS ? 0 : it->seed);
    crashing = begin_random(~it->seed);
    programs_journaled += it->is_journaled;
    for (uint32_t heap = 0; heap < it->heaps; heap++) make_heap(heap);
    for (uint32_t i = 0; i < it->threads && it->is_small; i++) begin_lane(&workers[i], 0);
    for (uint32_t i = 0; i < it->first; i++) do_one(&workers[it->deeds[i].thread], &it->deeds[i]);
    if (it->is_small) search_nap(1000); /* the helper comes to rest */
    for (uint32_t i = 0; i < it->threads; i++) workers[i].task = search_start(work, &workers[i]);
    search_own_part(true);
    if (left > 0) search_park();
    search_own_part(false);
    if (is_stopping)
        for (uint32_t heap = 0; heap < it->heaps; heap++) end_heap(heap, STOP);
    for (uint32_t i = 0; i < it->threads; i++) search_join(workers[i].task);
    for (uint32_t i = 0; i < it->threads && it->is_small; i++) end_lane(&workers[i], 0);
    search_nap(it->fault == NEVER_FAILS ? 100000000 : 20000000000);
    for (uint32_t heap = 0; heap < it->heaps; heap++) judge_quiet(&judges[heap]);
    for (uint32_t heap = 0; heap < it->heaps; heap++) judge_alone(&judges[heap]);
    for (uint32_t heap = 0; heap < it->heaps; heap++) close_heap(heap);
    search_end();
}
