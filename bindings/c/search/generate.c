/* What the programs are made of, by a seed: each has a theme, so that what is seldom meets what it has to. */

typedef enum { MIXED, DEADLINES, SETS, ROOM, ROUNDS, LOOKS, LANES, LEFTOVERS, POOLS, ENDS, THEMES } theme;

static uint64_t state;

static uint64_t below(uint64_t limit) {
    state ^= state << 13;
    state ^= state >> 7;
    state ^= state << 17;
    return (state * 2685821657736338717u >> 11) % limit;
}

static bool one_in(uint64_t n) {
    return below(n) == 0;
}

static void add(program *it, uint32_t thread, deed_kind kind, uint32_t object, uint64_t number) {
    if (it->count == MOST_DEEDS) return;
    uint8_t heap = it->heaps > 1 && it->count > 0 ? it->deeds[it->count - 1].heap : 0;
    it->deeds[it->count++] = (deed){kind, (uint8_t)thread, heap, false, object, number};
}

/* Times of a program are near to one that it has, so that one thread's nap is over when another one's deadline is, or the helper looks. */
static uint64_t common_time;

/* Nanoseconds: next to nothing, some steps, a sync, or a linger. */
static uint64_t some_time(void) {
    static const uint64_t TIMES[] = {100, 5000, 60000, 400000, 8000000};
    return one_in(2) ? common_time + below(800) : below(TIMES[below(sizeof TIMES / sizeof *TIMES)]);
}

static deed_kind some_enter(theme of) {
    if (of == DEADLINES) return one_in(3) ? ENTER : one_in(3) ? TRY : UNTIL;
    return !one_in(5) ? ENTER : one_in(2) ? TRY : UNTIL;
}

/* What a section does while it holds the objects from..to. */
static void add_inside(program *it, uint32_t thread, theme of, uint32_t from, uint32_t to) {
    for (uint64_t n = 1 + below(3); n > 0; n--) {
        uint32_t object = from + (uint32_t)below(to - from + 1);
        if (of != LOOKS || one_in(12)) add(it, thread, STORE, VALUE_OF + object, 0);
        add(it, thread, LOAD, VALUE_OF + object, 0);
    }
    if (from == 0 && one_in(4)) add(it, thread, of == LOOKS ? LOAD : STORE, PASSING, 0);
    if (one_in(of == DEADLINES ? 2 : 6)) add(it, thread, NAP, 0, some_time());
    if (one_in(12)) add(it, thread, LOOK, (uint32_t)below(OBJECTS), 0);
    if (to == 2 && (of == POOLS || one_in(12))) add(it, thread, one_in(2) ? TAKE : GIVE, (uint32_t)below(SLOTS), 0);
    if (of == ROOM || of == LEFTOVERS || (of == MIXED && one_in(8))) add(it, thread, FILL, to, one_in(3) ? below(990) + 1 : 985);
}

/* A section that may be taken back, also after it has freed one of its monitors. */
static void add_revert(program *it, uint32_t thread, uint32_t from, uint32_t to) {
    if (from < to && one_in(3)) add(it, thread, EXIT, to, 0);
    if (from < to && one_in(6)) add(it, thread, ENTER, to, 0);
    add(it, thread, REVERT, 0, 0);
    for (uint32_t object = from; object <= to; object++) add(it, thread, one_in(2) ? LOAD : STORE, VALUE_OF + object, 0);
    if (one_in(4)) add(it, thread, REVERT, 0, 0);
}

static void add_section(program *it, uint32_t thread, theme of) {
    uint32_t from = (uint32_t)below(OBJECTS), to = one_in(2) ? from : from + (uint32_t)below(OBJECTS - from);
    if (of == DEADLINES && !one_in(3)) from = to = 0;
    for (uint32_t object = from; object <= to; object++) add(it, thread, some_enter(of), object, some_time());
    bool is_deeper = one_in(6);
    if (is_deeper) add(it, thread, ENTER, from, 0);
    add_inside(it, thread, of, from, to);
    if (one_in(it->reverts ? 4 : 40)) add_revert(it, thread, from, to);
    if (is_deeper) add(it, thread, EXIT, from, 0);
    for (uint32_t object = to + 1; object-- > from;) add(it, thread, EXIT, object, 0);
}

/* A wait or a notification, sometimes with another monitor held. */
static void add_signal(program *it, uint32_t thread) {
    uint32_t object = (uint32_t)below(2), outer = one_in(5) ? 2 : object;
    if (outer != object) add(it, thread, ENTER, outer, 0);
    add(it, thread, ENTER, object, 0);
    if (one_in(8)) add(it, thread, ENTER, object, 0);
    if (one_in(2)) add(it, thread, STORE, VALUE_OF + object, 0);
    if (one_in(2))
        add(it, thread, WAIT, object, 1 + below(3));
    else
        add(it, thread, one_in(3) ? NOTIFY_ALL : NOTIFY, object, 0);
    if (one_in(3)) add(it, thread, STORE, VALUE_OF + object, 0);
    add(it, thread, EXIT, object, 0);
    add(it, thread, EXIT, object, 0);
    if (outer != object) add(it, thread, EXIT, outer, 0);
}

static void add_await(program *it, uint32_t thread) {
    switch (below(6)) {
    case 0: case 1: case 2: add(it, thread, AWAIT, 0, 0); break;
    case 3: add(it, thread, AWAIT_UNTIL, 0, some_time()); break;
    case 4: add(it, thread, AWAIT_SOME, 0, 0); break;
    default: add(it, thread, AWAIT_ROUND, 0, some_time());
    }
}

static void add_question(program *it, uint32_t thread) {
    static const deed_kind KINDS[] = {STATS, WAITS_OF, ASK, LOOK};
    add(it, thread, KINDS[below(4)], (uint32_t)below(OBJECTS), 0);
}

static void add_turn(program *it, uint32_t thread, theme of) {
    switch (of) {
    case SETS: if (one_in(4)) break; add_signal(it, thread); return;
    case ROUNDS: case LOOKS: add_section(it, thread, of); if (!one_in(3)) add_await(it, thread); return;
    case LANES: if (one_in(2)) break; add(it, thread, one_in(2) ? RENEW : ASK, (uint32_t)below(it->threads), 0); return;
    default: break;
    }
    if (of == LEFTOVERS && one_in(5)) add(it, thread, one_in(2) ? AWAIT : AWAIT_ROUND, 0, 9000000);
    switch (below(12)) {
    case 0: case 1: add_await(it, thread); break;
    case 2: add_signal(it, thread); break;
    case 3: add(it, thread, NAP, 0, some_time()); break;
    case 4: add_question(it, thread); break;
    case 5: if (one_in(2)) add(it, thread, RENEW, 0, 0); break;
    default: add_section(it, thread, of);
    }
}

static void add_full_sections(program *it, uint32_t thread, uint64_t sections) {
    for (; sections > 0; sections--) {
        add(it, thread, ENTER, thread % OBJECTS, 0);
        add(it, thread, FILL, thread % OBJECTS, 950 + below(40));
        add(it, thread, EXIT, thread % OBJECTS, 0);
    }
}

/* Each thread sends so much that a round for one of them leaves some of it, and that no round comes for a full ring. Or two do, and one that
 * waits for a single section, and so makes that round itself. */
static void add_leftovers(program *it) {
    it->linger = 5000;
    if (one_in(2)) {
        it->threads = it->lanes = 3;
        it->ring = it->capacity = 16384;
        add_full_sections(it, 0, 7);
        add_full_sections(it, 1, 7);
        add_full_sections(it, 2, 1);
        add(it, 2, NAP, 0, 400000 + below(400000)); /* until the others have ended, and before the helper looks */
        return add(it, 2, AWAIT, 0, 0);
    }
    for (uint32_t thread = 0; thread < it->threads; thread++) {
        add_full_sections(it, thread, 4 + below(2));
        if (!one_in(4)) add(it, thread, one_in(2) ? AWAIT_SOME : AWAIT_UNTIL, 0, some_time());
        if (one_in(2)) add(it, thread, one_in(2) ? AWAIT_ROUND : AWAIT, 0, 20000000);
    }
}

static void add_end(program *it) {
    static const deed_kind KINDS[] = {CLOSE, STOP, ABANDON};
    uint32_t thread = (uint32_t)below(it->threads);
    if (!one_in(3)) add(it, thread, NAP, 0, some_time());
    add(it, thread, KINDS[below(3)], 0, 0);
}

static void choose_fault(program *it) {
    it->fault = one_in(6) ? (device_fault)(1 + below(3)) : NEVER_FAILS;
    it->fault_at = 20 + below(80);
    it->fault_for = it->fault == SYNC_FAILS ? 1000000 : 1 + below(3);
}

/* ---- programs of a second kind: event loops, files, forks, and ends that come two at once ---- */

typedef enum { LOOPS, SHORT_LOOPS, FILES, FORKS, TWO_ENDS, MORE_THEMES } more_theme;

/* A thread with an event loop makes some sections, and then asks, or sleeps until it is told. */
static void add_loop_turn(program *it, uint32_t thread, more_theme of) {
    uint32_t object = (uint32_t)below(OBJECTS);
    for (uint64_t sections = below(3) + (of == SHORT_LOOPS); sections > 0; sections--) {
        add(it, thread, of == SHORT_LOOPS ? TRY : one_in(3) ? TRY : ENTER, object, 0);
        if (!one_in(4)) add(it, thread, STORE, VALUE_OF + object, 0);
        if (of == SHORT_LOOPS) add(it, thread, FILL, object, 900 + below(90));
        add(it, thread, EXIT, object, 0);
        if (of == SHORT_LOOPS && one_in(3)) add(it, thread, LISTEN, 0, one_in(3) ? some_time() : 0);
    }
    switch (below(6)) {
    case 0: break;
    case 1: add(it, thread, ASK_ALL, 0, 0); break;
    case 2: add(it, thread, ASK_ALL, 0, 0); add(it, thread, LISTEN, 0, some_time()); break;
    case 3: if (one_in(3)) add(it, thread, RENEW, 0, 0), add(it, thread, EVENT, 0, 0); break;
    default: add(it, thread, ASK_ALL, 0, 0); add(it, thread, LISTEN, 0, 0);
    }
}

static void add_more_turn(program *it, uint32_t thread, more_theme of) {
    switch (of) {
    case LOOPS: case SHORT_LOOPS: if (one_in(4)) add_turn(it, thread, MIXED); else add_loop_turn(it, thread, of); return;
    case FILES: if (one_in(3)) add(it, thread, one_in(6) ? OPEN_AGAIN : COPY, (uint32_t)below(COPIES_OF), 0); else add_turn(it, thread, one_in(2) ? ROUNDS : MIXED); return;
    case FORKS: if (one_in(6)) add(it, thread, FORK, 0, 0); else if (one_in(4)) add_loop_turn(it, thread, LOOPS); else add_turn(it, thread, MIXED); return;
    default: add_turn(it, thread, (theme[]){MIXED, SETS, ROUNDS, LANES}[below(4)]);
    }
}

static void make_more(program *it) {
    static const uint32_t LINGERS[] = {1, 20, 200, 5000, 5000};
    more_theme of = (more_theme)below(MORE_THEMES);
    it->threads = it->lanes = 2 + (uint32_t)below(3);
    it->heaps = of != FILES && one_in(12) ? 2 : 1;
    it->ring = 4096;
    it->capacity = one_in(4) ? 6000 : 2000;
    it->linger = LINGERS[below(sizeof LINGERS / sizeof *LINGERS)];
    it->processors = 1 + (uint32_t)below(4);
    common_time = 0;
    common_time = one_in(2) ? 1000 * it->linger : 800 + some_time();
    (void)one_in(2); /* so that programs are what they were */
    it->reverts = one_in(4);
    it->is_in_file = of == FILES || (of == FORKS && one_in(3));
    choose_fault(it);
    if (it->is_in_file) it->fault = NEVER_FAILS;
    for (uint32_t thread = 0; thread < it->threads; thread++) {
        if ((of == LOOPS || of == SHORT_LOOPS || of == FORKS) && !one_in(4)) add(it, thread, EVENT, 0, 0);
        for (uint64_t turn = 1 + below(6); turn > 0; turn--) add_more_turn(it, thread, of);
    }
    uint64_t ends = of == TWO_ENDS ? 2 + below(2) : one_in(4);
    for (; ends > 0; ends--) add_end(it);
    if (of == FILES && one_in(3)) add(it, (uint32_t)below(it->threads), OPEN_AGAIN, 0, 0);
}

/* One program in three has heaps with journals; not by the chances above, so that programs are what they were. The number is such that seeds which find
 * a mistake that few others do (255, 855, 1935) have none. */
static bool has_journals(uint64_t seed) {
    return (seed * 0xE7037ED1A0B428DBu >> 33) % 3 == 0;
}

static void make_small(program *it, unsigned number);

static void program_make(program *it, uint64_t seed) {
    static const uint32_t LINGERS[] = {1, 1, 20, 200, 5000, 5000};
    memset(it, 0, sizeof *it);
    state = seed * 0x9E3779B97F4A7C15u + 0x7654321;
    it->seed = seed;
    it->is_journaled = seed >= SMALL_PROGRAMS && has_journals(seed);
    if (seed < SMALL_PROGRAMS) return make_small(it, (unsigned)seed);
    for (int i = 0; i < 8; i++) (void)below(2);
    if (seed % 3 == 0) return make_more(it); /* so that the others are what they were */
    theme of = (theme)below(THEMES);
    if (of == LEFTOVERS && one_in(2)) of = DEADLINES; /* the former is dear */
    it->threads = 2 + (uint32_t)below(of == LEFTOVERS ? 2 : 3);
    it->heaps = one_in(12) ? 2 : 1;
    it->lanes = it->threads - (of == LANES && it->threads > 2 && one_in(3));
    it->ring = of == LEFTOVERS ? 8192 : 4096;
    it->capacity = of == LEFTOVERS ? 8192 : one_in(4) ? 6000 : 2000;
    it->linger = LINGERS[below(sizeof LINGERS / sizeof *LINGERS)];
    it->processors = 1 + (uint32_t)below(4);
    common_time = 0;
    common_time = one_in(2) ? 1000 * it->linger : 800 + some_time();
    (void)one_in(2); /* so that programs are what they were */
    it->reverts = one_in(2);
    choose_fault(it);
    if (of == LEFTOVERS && one_in(2)) return add_leftovers(it);
    for (uint32_t thread = 0; thread < it->threads; thread++)
        for (uint64_t turn = 1 + below(of == LEFTOVERS ? 16 : of == ROOM ? 5 : 6); turn > 0; turn--) {
            uint32_t begun = it->count;
            add_turn(it, thread, of);
            uint8_t heap = it->heaps > 1 ? (uint8_t)below(2) : 0;
            for (uint32_t i = begun; i < it->count; i++) it->deeds[i].heap = heap;
        }
    if (of == ENDS || one_in(10)) add_end(it);
}

/* ---- small programs, of which each schedule is tried ---- */

/* A thread, what it does, and with what. `first`: so many deeds are done before the others begin, so that no order of them is tried. With one
 * processor nobody looks again and again whether a round has ended. The last program's heap has a journal. */
typedef struct {
    uint8_t thread, kind, object;
    uint32_t number;
} small_deed;
typedef struct {
    const char *name;
    uint32_t threads, linger, processors, first;
    small_deed deeds[20];
} small_program;

#define SECTION(thread, object) {thread, ENTER, object, 0}, {thread, STORE, object, 0}, {thread, EXIT, object, 0}
#define LOOKED_AT(thread, object) {thread, ENTER, object, 0}, {thread, LOAD, object, 0}, {thread, EXIT, object, 0}
static const small_program SMALL[SMALL_PROGRAMS] = {
    {"one looks and one stores while the helper looks every microsecond", 2, 1, 2, 0, {LOOKED_AT(0, 0), SECTION(1, 1)}},
    {"two want one monitor", 2, 5000, 2, 0, {SECTION(0, 0), SECTION(1, 0)}},
    {"three want one monitor, and one of them gives up", 3, 5000, 2, 1,
     {{0, ENTER, 0, 0}, {0, NAP, 0, 4200}, {0, EXIT, 0, 0}, {1, UNTIL, 0, 4000}, {1, EXIT, 0, 0}, {2, ENTER, 0, 0}, {2, EXIT, 0, 0}}},
    {"one waits in the set, and one notifies it", 2, 5000, 2, 0,
     {{0, ENTER, 0, 0}, {0, WAIT, 0, 1}, {0, EXIT, 0, 0}, {1, ENTER, 0, 0}, {1, NOTIFY, 0, 0}, {1, EXIT, 0, 0}}},
    {"one waits with another monitor held, and one notifies all", 2, 5000, 2, 0,
     {{0, ENTER, 1, 0}, {0, ENTER, 0, 0}, {0, WAIT, 0, 1}, {0, EXIT, 0, 0}, {0, EXIT, 1, 0}, {1, ENTER, 0, 0}, {1, NOTIFY_ALL, 0, 0},
      {1, EXIT, 0, 0}}},
    {"each of two waits for its section", 2, 5000, 1, 0, {SECTION(0, 0), {0, AWAIT, 0, 0}, SECTION(1, 1), {1, AWAIT, 0, 0}}},
    {"one waits for its section, and another ends one", 2, 5000, 2, 0, {SECTION(0, 0), {0, AWAIT, 0, 0}, SECTION(1, 1)}},
    {"of two that wait for their sections one has a deadline", 2, 5000, 1, 0,
     {SECTION(0, 0), {0, AWAIT, 0, 0}, SECTION(1, 1), {1, AWAIT_UNTIL, 0, 900000}}},
    {"one waits for what it has looked at, and another stores", 2, 5000, 2, 0, {LOOKED_AT(0, 0), {0, AWAIT, 0, 0}, SECTION(1, 1)}},
    {"a stop, while one waits for its section", 2, 5000, 2, 0, {SECTION(0, 0), {0, AWAIT, 0, 0}, {1, STOP, 0, 0}}},
    /* Its room depends on the other's section, and it has asked for all the rounds that it may. */
    {"an event loop finds no room, and another's round makes some", 2, 5000, 2, 15,
     {{0, ENTER, 0, 0}, SECTION(0, 1), {1, EVENT, 0, 0}, {1, ENTER, 1, 0}, {1, FILL, 1, 985}, {1, EXIT, 1, 0}, {1, ENTER, 1, 0}, {1, FILL, 1, 985},
      {1, EXIT, 1, 0}, {1, TRY, 1, 0}, {1, TRY, 1, 0}, {1, TRY, 1, 0}, {1, NAP, 0, 1000}, {1, TRY, 1, 0}, {1, ASK_ALL, 0, 0}, {1, LISTEN, 0, 0},
      {0, EXIT, 0, 0}, {0, AWAIT, 0, 0}}},
    {"each of two waits for its section, over a journal", 2, 5000, 2, 0, {SECTION(0, 0), {0, AWAIT, 0, 0}, SECTION(1, 1), {1, AWAIT, 0, 0}}},
};

/* of a small one */
static const char *program_name(uint64_t seed) {
    return SMALL[seed].name;
}

static void make_small(program *it, unsigned number) {
    const small_program *small = &SMALL[number];
    it->threads = it->lanes = small->threads;
    it->heaps = 1;
    it->ring = 4096;
    it->capacity = 2000;
    it->linger = small->linger;
    it->processors = small->processors;
    it->first = small->first;
    it->is_small = true;
    it->is_journaled = number == SMALL_PROGRAMS - 1;
    for (size_t i = 0; i < sizeof small->deeds / sizeof *small->deeds; i++) {
        const small_deed *deed = &small->deeds[i];
        if (deed->kind != NO_DEED) add(it, deed->thread, (deed_kind)deed->kind, deed->object, deed->number);
    }
}

/* ---- as text ---- */

static const char *const NAMES[] = {
    [ENTER] = "enter %u", [TRY] = "try to enter %u", [UNTIL] = "enter %u for %llu ns", [EXIT] = "exit %u", [LOAD] = "load %u",
    [STORE] = "store %u", [FILL] = "fill %u by %llu stores", [WAIT] = "wait for %u, %llu times at most", [NOTIFY] = "notify %u",
    [NOTIFY_ALL] = "notify all of %u", [TAKE] = "take a slot", [GIVE] = "give slot %u", [REVERT] = "revert", [AWAIT] = "await",
    [AWAIT_UNTIL] = "await all for (%u) %llu ns", [AWAIT_SOME] = "await all but one", [AWAIT_ROUND] = "await a round for (%u) %llu ns",
    [NAP] = "nap for (%u) %llu ns", [STATS] = "stats", [LOOK] = "look at %u", [WAITS_OF] = "waits", [RENEW] = "end and begin",
    [ASK] = "ask of thread %u", [CLOSE] = "close", [STOP] = "stop", [ABANDON] = "abandon", [EVENT] = "make an event",
    [ASK_ALL] = "ask for all", [LISTEN] = "sleep until the event is readable, for (%u) %llu ns (0: for ever)", [COPY] = "copy to place %u",
    [OPEN_AGAIN] = "open the file again", [FORK] = "fork",
};

static void program_print(const program *it) {
    static const char *const FAULTS[] = {"", ", writes fail", ", syncs fail", ", calls hang"};
    printf("%u threads, %u lanes, %u heaps%s%s, capacity %u, ring %u, linger %u us, %u processors%s%s", it->threads, it->lanes, it->heaps,
           it->is_in_file ? " in a file" : "", it->is_journaled ? " with journals" : "", it->capacity, it->ring, it->linger, it->processors,
           it->reverts ? ", reverts" : "", FAULTS[it->fault]);
    if (it->fault != NEVER_FAILS) printf(" from call %llu, %llu of them", (unsigned long long)it->fault_at, (unsigned long long)it->fault_for);
    puts("");
    for (uint32_t i = 0; i < it->count; i++) {
        const deed *deed = &it->deeds[i];
        if (deed->is_left_out) continue;
        printf("  %3u: thread %u: ", i, deed->thread);
        printf(NAMES[deed->kind], deed->object, (unsigned long long)deed->number);
        puts(deed->heap > 0 ? " (the second heap)" : "");
    }
}
