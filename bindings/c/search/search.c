/* The scheduler's C is compiled with -fsanitize=thread, and what the compiler then calls before each atomic read and write (__tsan_atomic..) is
 * here in place of the sanitizer: a step, at which another thread may go on. Mutexes, futexes, joins, sleeps and the clock are here too
 * (wraps.c leads there). Time is counted. It goes on by itself when nobody can.
 *
 * Threads are contexts of one thread of the system, so that a switch is cheap. One order of all steps is searched: not what processors or
 * compilers may do to steps that aren't sequentially consistent. A call of the proved library is one step. */

enum {
    STACK = 512 * 1024,
    MOST_MUTEXES = 64,
    MOST_STEPS = 2000000,
    MOST_IN_A_ROW = 4000, /* steps, after which one that waits by looking again and again lets others go on */
    STEP_TIME = 20,       /* nanoseconds */
    YIELD_TIME = 40000,   /* of a yield, and of each fourth look at the clock in a row, where time stands still else: so that who looks until */
    MOST_LOOKS = 3        /* a time comes to an end */
};

typedef enum { GONE, RUNS, WANTS_MUTEX, SLEEPS, JOINS, IS_PARKED } task_state;

typedef struct {
    task_state state;
    const void *on; /* the mutex, the word or the task that it waits for */
    uint64_t due;
    bool is_woken;  /* by a wake, not by time */
    bool yields;    /* it lets others go on first */
    bool is_quiet;  /* its steps are none */
    int priority, error; /* `error`: errno, while others run */
    uint32_t in_a_row, looks;
    search_body *body;
    void *argument, *answer;
    ucontext_t context;
} task;

static task tasks[MOST_TASKS];
static void *stacks[MOST_TASKS];
static int count;
static task *me; /* NULL: nothing is searched now */
static search_schedule schedule;
static size_t next_told;
static uint64_t choosing, chance, steps, now;
static uint64_t earliest; /* no task that sleeps is due before */
static uint64_t changes[16];
static int lowest;
static bool is_alone;
static struct {
    const void *mutex;
    task *owner;
} mutexes[MOST_MUTEXES];

ssize_t real_write(int descriptor, const void *bytes, size_t size) __asm__("__real_write");

static search_run search_made;

static uint64_t next_random(uint64_t *state) {
    *state ^= *state << 13;
    *state ^= *state >> 7;
    *state ^= *state << 17;
    return *state * 2685821657736338717u >> 11;
}

static uint64_t begin_random(uint64_t seed) {
    uint64_t state = seed * 0x9E3779B97F4A7C15u + 0x1234567;
    for (int i = 0; i < 8; i++) (void)next_random(&state);
    return state;
}

/* a number by chance */
static uint64_t search_chance(void) {
    return chance == 0 ? 0 : next_random(&chance);
}

/* nanoseconds, without a step */
static uint64_t search_time(void) {
    return now;
}

static uint64_t search_steps(void) {
    return steps;
}

void search_fail(const char *why, ...) {
    char text[512];
    va_list words;
    va_start(words, why);
    (void)vsnprintf(text, sizeof text, why, words);
    va_end(words);
    fail(text);
}

/* ---- who goes on ---- */

static size_t list_able(task **able) {
    size_t n = 0;
    for (int i = 0; i < count; i++)
        if (tasks[i].state == RUNS) able[n++] = &tasks[i];
    return n;
}

static bool is_able(task **able, size_t n, const task *it) {
    for (size_t i = 0; i < n; i++)
        if (able[i] == it) return true;
    return false;
}

/* Whoever runs goes on; where it can't, or lets others go first, the next one by number. */
static task *usual_of(task **able, size_t n) {
    if (me->state == RUNS && !me->yields) return me;
    for (size_t i = 0; i < n; i++)
        if (able[i] > me) return able[i];
    return able[0];
}

static task *best_of(task **able, size_t n) {
    task *best = able[0];
    for (size_t i = 1; i < n; i++)
        if (able[i]->priority > best->priority) best = able[i];
    return best;
}

static void wake_those_due(void) {
    if (now < earliest) return;
    earliest = NEVER;
    for (int i = 0; i < count; i++) {
        if (tasks[i].state != SLEEPS) continue;
        if (tasks[i].due <= now)
            tasks[i].state = RUNS;
        else if (tasks[i].due < earliest)
            earliest = tasks[i].due;
    }
}

static uint64_t next_due(void) {
    uint64_t due = NEVER;
    for (int i = 0; i < count; i++)
        if (tasks[i].state == SLEEPS && tasks[i].due < due) due = tasks[i].due;
    return due;
}

static bool is_timeless(void) {
    return me != NULL && schedule.kind == TIMELESS;
}

/* The first that sleeps until a time, which has come. */
static task *skip_time(void) {
    task *first = NULL;
    uint64_t due = next_due();
    for (int i = 0; i < count && first == NULL; i++)
        if (tasks[i].state == SLEEPS && tasks[i].due == due) first = &tasks[i];
    if (due > now) now = due;
    wake_those_due();
    return first;
}

static task *told_of(task *usual) {
    const search_choice *it = &schedule.told[next_told];
    if (next_told == schedule.count || it->place != search_made.places) return usual;
    next_told++;
    if (it->task == TIME && is_timeless() && next_due() != NEVER) return skip_time();
    return it->task < (uint32_t)count && tasks[it->task].state == RUNS ? &tasks[it->task] : usual;
}

static task *choice_of(task **able, size_t n, task *usual) {
    switch (schedule.kind) {
    case AS_TOLD: case TIMELESS: return told_of(usual);
    case BY_PRIORITY: return best_of(able, n);
    case STICKY:
        if (usual == me && next_random(&choosing) % 10 != 0) return me;
        return able[next_random(&choosing) % n];
    default: return able[next_random(&choosing) % n];
    }
}

static void note_place(task **able, size_t n, const task *usual) {
    if (search_made.places == MOST_TOLD) return;
    search_place *it = &search_made.at[search_made.places];
    it->able = 0;
    for (size_t i = 0; i < n; i++) it->able |= 1u << (able[i] - tasks);
    if (usual != me && me->state == RUNS) it->able &= ~(1u << (me - tasks)); /* it lets others go first */
    it->usual = (uint8_t)(usual - tasks);
    if (is_timeless() && next_due() != NEVER) it->able |= 1u << TIME;
}

static void note_choice(uint32_t chosen) {
    uint32_t place = (uint32_t)search_made.places;
    if (place < MOST_TOLD) search_made.choices[search_made.count++] = (search_choice){place, chosen};
}

static task *pick(task **able, size_t n) {
    bool may_skip_time = is_timeless() && next_due() != NEVER;
    if (n == 1 && !may_skip_time) return able[0];
    task *usual = usual_of(able, n);
    note_place(able, n, usual);
    task *chosen = choice_of(able, n, usual);
    if (chosen != usual) note_choice(is_able(able, n, chosen) ? (uint32_t)(chosen - tasks) : TIME);
    search_made.places++;
    return chosen;
}

/* so much time goes on, without a step */
static void search_pass(uint64_t nanoseconds) {
    if (is_timeless()) return;
    now += nanoseconds;
    wake_those_due();
}

/* Nobody can go on: time does, until the first that sleeps is due. */
static void pass_time(void) {
    uint64_t due = next_due();
    if (due == NEVER) {
        if (!is_stuck()) search_fail("nobody can go on");
        return;
    }
    if (due > now) time_goes_on(due - now);
    if (due > now) now = due;
    wake_those_due();
}

static void switch_to(task *next) {
    task *before = me;
    if (next == before) return;
    before->error = errno;
    before->in_a_row = 0;
    me = next;
    swapcontext(&before->context, &next->context);
    errno = me->error;
}

static void go(void) {
    task *able[MOST_TASKS];
    size_t n;
    while ((n = list_able(able)) == 0) pass_time();
    task *next = pick(able, n);
    me->yields = false;
    switch_to(next);
}

static void lower(task *it) {
    it->priority = --lowest;
    it->yields = true;
    it->in_a_row = 0;
}

static void search_step(void) {
    if (me == NULL || me->is_quiet) return;
    if (++steps > MOST_STEPS) search_fail("too many steps");
    search_pass(STEP_TIME);
    for (uint32_t i = 1; i < schedule.depth && schedule.kind == BY_PRIORITY; i++)
        if (changes[i - 1] == steps) me->priority = --lowest;
    if (++me->in_a_row > MOST_IN_A_ROW) lower(me);
    go();
}

/* The one that runs has changed what others may see: it isn't one that only looks again and again. */
static void note_change(void) {
    if (me != NULL) me->looks = 0;
}

/* of the program, in which who goes on is chosen */
static void search_own_part(bool begins) {
    *(begins ? &search_made.first : &search_made.last) = search_made.places;
}

static void block(task_state state, const void *on, uint64_t due) {
    if (me->state != RUNS) search_fail("nobody can go on, and one that sleeps has a mutex");
    if (is_alone) search_fail("a call on a parent's heap sleeps");
    me->state = state;
    me->on = on;
    me->due = due;
    if (due < earliest) earliest = due;
    me->is_woken = false;
    go();
    me->looks = 0;
}

/* A task sleeps until search_let lets it go on. */
static void search_park(void) {
    block(IS_PARKED, NULL, NEVER);
}

static void search_let(int number) {
    if (tasks[number].state == IS_PARKED) tasks[number].state = RUNS;
}

/* ---- the beginning and the end of a run ---- */

/* `chance` is the seed of all else that comes by chance, as clocks and sleeps that end for nothing; 0: nothing does. */
static void search_begin(const search_schedule *given, uint64_t chance_seed) {
    memset(tasks, 0, sizeof tasks);
    memset(mutexes, 0, sizeof mutexes);
    schedule = *given;
    search_made.count = search_made.places = search_made.first = search_made.last = 0;
    next_told = 0;
    choosing = begin_random(given->seed);
    chance = chance_seed == 0 ? 0 : begin_random(chance_seed);
    count = 1;
    steps = 0;
    lowest = 0;
    now = 1000000000;
    earliest = NEVER;
    for (size_t i = 0; i < sizeof changes / sizeof *changes; i++) changes[i] = 1 + next_random(&choosing) % (given->about + 1);
    me = &tasks[0];
    *me = (task){.state = RUNS, .due = NEVER, .priority = (int)(100 + next_random(&choosing) % 900)};
}

/* In a child that was forked no other task runs: from now on it fails if the one that runs sleeps. */
static void search_be_alone(void) {
    is_alone = true;
}

/* While the task that runs is quiet its steps are none: for what is done often, and where no other order shows more. Whether it was. */
static bool search_be_quiet(bool is_quiet) {
    bool was_quiet = me->is_quiet;
    me->is_quiet = is_quiet;
    return was_quiet;
}

static void search_end(void) {
    for (int i = 1; i < count; i++)
        if (tasks[i].state != GONE) search_fail("task %d is left", i);
    me = NULL;
}

/* ---- threads ---- */

static void run_task(void) {
    me->answer = me->body(me->argument);
    me->state = GONE;
    for (int i = 0; i < count; i++)
        if (tasks[i].state == JOINS && tasks[i].on == me) tasks[i].state = RUNS;
    go();
}

static void *stack_of(int number) {
    if (stacks[number] != NULL) return stacks[number];
    void *stack = mmap(NULL, STACK, PROT_READ | PROT_WRITE, MAP_PRIVATE | MAP_ANONYMOUS | MAP_NORESERVE, -1, 0);
    if (stack == MAP_FAILED) search_fail("no memory for a stack");
    return stacks[number] = stack;
}

static int new_task(search_body *body, void *argument) {
    if (count == MOST_TASKS) search_fail("too many threads");
    int number = count++;
    int priority = (int)(100 + next_random(&choosing) % 900);
    tasks[number] = (task){.state = RUNS, .due = NEVER, .body = body, .argument = argument, .priority = priority};
    getcontext(&tasks[number].context);
    tasks[number].context.uc_stack.ss_sp = stack_of(number);
    tasks[number].context.uc_stack.ss_size = STACK;
    makecontext(&tasks[number].context, run_task, 0);
    return number;
}

/* a thread of the program; answers its number */
static int search_start(search_body *body, void *argument) {
    int number = new_task(body, argument);
    search_step();
    return number;
}

static void search_join(int number) {
    search_step();
    if (tasks[number].state != GONE) block(JOINS, &tasks[number], NEVER);
}

int searched_create(pthread_t *thread, const pthread_attr_t *attributes, search_body *body, void *argument) {
    (void)attributes;
    *thread = (pthread_t)new_task(body, argument);
    search_step();
    return 0;
}

int searched_join(pthread_t thread, void **answer) {
    search_join((int)thread);
    if (answer != NULL) *answer = tasks[thread].answer;
    return 0;
}

/* ---- mutexes ---- */

static int place_of(const void *mutex) {
    int free_place = -1;
    for (int i = 0; i < MOST_MUTEXES; i++) {
        if (mutexes[i].mutex == mutex) return i;
        if (mutexes[i].mutex == NULL && free_place < 0) free_place = i;
    }
    if (free_place < 0) search_fail("too many mutexes");
    mutexes[free_place].mutex = mutex;
    return free_place;
}

/* Before and after a run one thread runs alone. */
int searched_lock(pthread_mutex_t *mutex) {
    if (me == NULL) return 0;
    search_step();
    if (mutexes[place_of(mutex)].owner == me) search_fail("a mutex is locked twice");
    while (mutexes[place_of(mutex)].owner != NULL) block(WANTS_MUTEX, mutex, NEVER);
    mutexes[place_of(mutex)].owner = me;
    note_change();
    return 0;
}

int searched_unlock(pthread_mutex_t *mutex) {
    if (me == NULL) return 0;
    int place = place_of(mutex);
    if (mutexes[place].owner != me) search_fail("a mutex is unlocked by another");
    mutexes[place].owner = NULL;
    mutexes[place].mutex = NULL;
    for (int i = 0; i < count; i++)
        if (tasks[i].state == WANTS_MUTEX && tasks[i].on == mutex) tasks[i].state = RUNS;
    search_step();
    return 0;
}

/* ---- sleeping ---- */

static void go_on_by(uint64_t nanoseconds) {
    now += nanoseconds;
    wake_those_due();
}

/* Time stands still, but for one that looks again and again. */
static void look_at_time(void) {
    if (++me->looks > MOST_LOOKS) go_on_by(YIELD_TIME);
}

int searched_clock(clockid_t clock, struct timespec *time) {
    if (me == NULL || clock != CLOCK_MONOTONIC) return clock_gettime(clock, time);
    search_step();
    search_pass(50 + search_chance() % 1000);
    if (is_timeless()) look_at_time();
    *time = (struct timespec){(time_t)(now / 1000000000), (long)(now % 1000000000)};
    return 0;
}

static void search_nap(uint64_t nanoseconds) {
    block(SLEEPS, NULL, now + nanoseconds);
}

int searched_sleep(const struct timespec *time, struct timespec *left) {
    (void)left;
    if (me != NULL) search_nap((uint64_t)time->tv_sec * 1000000000 + (uint64_t)time->tv_nsec);
    return 0;
}

int searched_yield(void) {
    if (me == NULL) return 0;
    search_pass(100);
    if (is_timeless()) go_on_by(YIELD_TIME);
    lower(me);
    search_step();
    return 0;
}

static long sleep_on_word(const uint32_t *word, uint32_t seen, const struct timespec *due) {
    search_step();
    if (*(const volatile uint32_t *)word != seen) return errno = EAGAIN, -1;
    uint64_t at = due == NULL ? NEVER : (uint64_t)due->tv_sec * 1000000000 + (uint64_t)due->tv_nsec;
    if (at <= now) return errno = ETIMEDOUT, -1;
    if (search_chance() % 200 == 1) { /* woken for nothing */
        search_step();
        return errno = EINTR, -1;
    }
    block(SLEEPS, word, at);
    return me->is_woken ? 0 : (errno = ETIMEDOUT, -1);
}

static long wake_on_word(const uint32_t *word, int most) {
    int woken = 0;
    for (int i = 0; i < count && woken < most; i++) {
        if (tasks[i].state != SLEEPS || tasks[i].on != word) continue;
        tasks[i].state = RUNS;
        tasks[i].is_woken = true;
        woken++;
    }
    note_change();
    search_step();
    return woken;
}

/* Of the system's calls by number futexes alone are searched; others aren't made. */
long searched_call(long number, ...) {
    va_list words;
    va_start(words, number);
    uint32_t *word = va_arg(words, uint32_t *);
    int operation = va_arg(words, int);
    uint32_t value = va_arg(words, uint32_t);
    const struct timespec *due = va_arg(words, const struct timespec *);
    va_end(words);
    if (number != SYS_futex || me == NULL) return errno = ENOSYS, -1;
    switch (operation & FUTEX_CMD_MASK) {
    case FUTEX_WAIT_BITSET: return sleep_on_word(word, value, due);
    case FUTEX_WAKE: return wake_on_word(word, (int)value);
    default: search_fail("a futex call that isn't searched: %d", operation);
    }
}

/* ---- descriptors ---- */

enum { MOST_DESCRIPTORS = 256 };
static const char descriptors[MOST_DESCRIPTORS]; /* a place for each, on which tasks sleep */

/* A task sleeps until the descriptor, an event of the scheduler's C, is readable, or until that time; whether it is. */
static bool search_watch(int descriptor, uint64_t due) {
    if (descriptor < 0 || descriptor >= MOST_DESCRIPTORS) search_fail("no descriptor of an event: %d", descriptor);
    for (;;) {
        struct pollfd it = {descriptor, POLLIN, 0};
        search_step();
        if (poll(&it, 1, 0) == 1) return true;
        if (due <= now) return false;
        block(SLEEPS, &descriptors[descriptor], due);
    }
}

/* Whoever waits for it is woken by a write. */
ssize_t searched_write(int descriptor, const void *bytes, size_t size) {
    ssize_t written = real_write(descriptor, bytes, size);
    if (me == NULL || descriptor < 3 || descriptor >= MOST_DESCRIPTORS) return written;
    for (int i = 0; i < count; i++)
        if (tasks[i].state == SLEEPS && tasks[i].on == &descriptors[descriptor]) tasks[i].state = RUNS;
    search_step();
    return written;
}

/* ---- what the compiler calls ---- */

void __tsan_init(void) {}
void __tsan_func_entry(void *caller) { (void)caller; }
void __tsan_func_exit(void) {}
void __tsan_read_range(void *at, unsigned long size) { (void)at, (void)size; }
void __tsan_write_range(void *at, unsigned long size) { (void)at, (void)size; }
void __tsan_atomic_thread_fence(int order) { (void)order; search_step(); }
void __tsan_atomic_signal_fence(int order) { (void)order; }

/* What isn't atomic belongs to one thread at a time: ThreadSanitizer's own runs look for races (tools/run-examples --tsan). */
#define PLAIN(size) \
    void __tsan_read##size(void *at) { (void)at; } \
    void __tsan_write##size(void *at) { (void)at; } \
    void __tsan_unaligned_read##size(void *at) { (void)at; } \
    void __tsan_unaligned_write##size(void *at) { (void)at; } \
    void __tsan_volatile_read##size(void *at) { (void)at; } \
    void __tsan_volatile_write##size(void *at) { (void)at; }
PLAIN(1) PLAIN(2) PLAIN(4) PLAIN(8) PLAIN(16)

#define CHANGE(bits, type, name, changed) \
    type __tsan_atomic##bits##_##name(volatile type *at, type value, int order) { \
        (void)order; \
        search_step(); \
        note_change(); \
        type old = *at; \
        *at = (type)(changed); \
        return old; \
    }
#define EXCHANGE_IF(bits, type, name) \
    int __tsan_atomic##bits##_compare_exchange_##name(volatile type *at, type *expected, type value, int order, int other) { \
        (void)order, (void)other; \
        search_step(); \
        type old = *at; \
        if (old == *expected) return note_change(), *at = value, 1; \
        *expected = old; \
        return 0; \
    }
#define ATOMIC(bits, type) \
    type __tsan_atomic##bits##_load(const volatile type *at, int order) { \
        (void)order; \
        search_step(); \
        return *at; \
    } \
    void __tsan_atomic##bits##_store(volatile type *at, type value, int order) { \
        (void)order; \
        search_step(); \
        note_change(); \
        *at = value; \
    } \
    CHANGE(bits, type, exchange, value) CHANGE(bits, type, fetch_add, old + value) CHANGE(bits, type, fetch_sub, old - value) \
    CHANGE(bits, type, fetch_and, old & value) CHANGE(bits, type, fetch_or, old | value) CHANGE(bits, type, fetch_xor, old ^ value) \
    EXCHANGE_IF(bits, type, strong) EXCHANGE_IF(bits, type, weak)
ATOMIC(8, uint8_t) ATOMIC(16, uint16_t) ATOMIC(32, uint32_t) ATOMIC(64, uint64_t)
