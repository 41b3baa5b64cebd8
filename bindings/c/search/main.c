/* search small SECONDS [STEPS [MOST [ONE]]]: each small program under all schedules by two other choices at most, first by none and then by one;
 * until the time is over, or so many steps are made, or until that were more than MOST runs of it. ONE: that small program alone.
 * search programs FROM COUNT SECONDS [STEPS]: a program and a schedule for each seed, for so many seconds or steps at most.
 * search tearing FROM COUNT SECONDS [STEPS]: the same, on devices that tear sectors below journals too. The judge has to see that.
 * search one SEED TRIES [LEFT-OUT] [CHOICES]: the program of a seed under its own schedule (TRIES 0) or under so many others, without the deeds
 * of that list, or with these choices (PLACE:TASK,..). It tells the program, and the choices of what has failed.
 * A fault is told in a line, and the status is 3. tools/search builds and calls this. */
#include "search.h"
#include "search.c"
#include "device.c"
#include "judge.c"
#include "wraps.c"
#include "programs.c"
#include "generate.c"

static program made;
static uint64_t seed_now;
static bool tells;
static uint64_t all_steps, most_steps; /* of all runs before this one */

/* ---- faults ---- */

static void tell_choices(void) {
    printf("CHOICES ");
    for (size_t i = 0; i < search_made.count; i++)
        printf("%s%u:%u", i > 0 ? "," : "", search_made.choices[i].place, search_made.choices[i].task);
    puts("");
}

static void fail(const char *why) {
    printf("FAULT seed %llu: %s; step %llu of %llu, time %llu us\n", (unsigned long long)seed_now, why, (unsigned long long)search_steps(),
           (unsigned long long)(all_steps + search_steps()), (unsigned long long)(search_time() / 1000));
    if (tells) tell_choices();
    fflush(stdout);
    _exit(3);
}

/* Only what may be called here: the program has crashed, or goes on for ever without a step. */
static void fail_by_signal(int signal) {
    static char text[96] = "FAULT seed ";
    size_t length = strlen(text);
    char digits[24];
    size_t count = 0;
    for (uint64_t left = seed_now; left > 0 || count == 0; left /= 10) digits[count++] = (char)('0' + left % 10);
    while (count > 0) text[length++] = digits[--count];
    const char *why = signal == SIGVTALRM ? ": it goes on for ever\n" : ": it has crashed\n";
    memcpy(text + length, why, strlen(why));
    (void)!write(1, text, length + strlen(why));
    _exit(3);
}

static void watch_signals(void) {
    static char stack[65536];
    stack_t other = {.ss_sp = stack, .ss_size = sizeof stack};
    struct sigaction action = {.sa_handler = fail_by_signal, .sa_flags = SA_ONSTACK};
    sigaltstack(&other, NULL);
    sigaction(SIGSEGV, &action, NULL);
    sigaction(SIGBUS, &action, NULL);
    sigaction(SIGFPE, &action, NULL);
    sigaction(SIGABRT, &action, NULL);
    sigaction(SIGVTALRM, &action, NULL);
}

/* A run has so many seconds of a processor, many times what it takes: a machine may count those that it hasn't given. */
static void watch_run(void) {
    const struct itimerval most = {.it_value.tv_sec = 100};
    setitimer(ITIMER_VIRTUAL, &most, NULL);
}

/* ---- runs ---- */

static search_schedule schedule_of(const program *it, uint64_t seed) {
    uint64_t by = seed * 0xD1342543DE82EF95u >> 32;
    static const search_kind KINDS[] = {AT_RANDOM, STICKY, BY_PRIORITY, BY_PRIORITY};
    return (search_schedule){seed, KINDS[by % 4], 1 + by / 4 % 5, 200 + 40 * it->count, NULL, 0};
}

static double seconds_now(void) {
    struct timeval time;
    gettimeofday(&time, NULL);
    return (double)time.tv_sec + (double)time.tv_usec / 1e6;
}

static double last_second;

static double used_seconds(void) {
    return (double)clock() / CLOCKS_PER_SEC;
}

static void run_once(const search_schedule *schedule) {
    watch_run();
    program_run(&made, schedule);
    all_steps += search_steps();
}

/* Whether the time is over, or the steps, of which so many more have a part. By steps all machines try the same, however much else they do. */
static bool is_time_over(double begun, uint64_t before, uint64_t parts) {
    uint64_t left = before < most_steps ? most_steps - before : 0;
    return seconds_now() - begun >= (last_second - begun) / (double)parts || all_steps - before >= left / parts;
}

static void run_programs(uint64_t from, uint64_t count) {
    double begun = seconds_now();
    uint64_t done = 0;
    for (uint64_t seed = from; seed - from < count && !is_time_over(begun, 0, 1); seed++) {
        seed_now = seed;
        program_make(&made, seed);
        search_schedule schedule = schedule_of(&made, seed);
        run_once(&schedule);
        done++;
    }
    printf("%llu programs, %llu steps, %llu crashes looked at, %llu programs stopped where nobody could go on, %llu over journals, %llu rounds of one sync\n",
           (unsigned long long)done, (unsigned long long)all_steps, (unsigned long long)programs_crashes, (unsigned long long)programs_stuck,
           (unsigned long long)programs_journaled, (unsigned long long)programs_one_sync);
}

/* ---- all schedules of a small program that are near to the usual one ---- */

/* In a schedule by so many other choices, at so many places, another one goes on than by itself, or the time of one that sleeps is over. In a
 * small program nothing comes by chance, so that the places before the first other choice are the same in each run. */
enum { MOST_CHOICES = 2 };
static search_choice path[MOST_CHOICES];
static double program_begun, program_used;
static uint64_t steps_before, programs_left, runs, most_runs;
static size_t most_places;

static bool is_cut_short(void) {
    return runs >= most_runs || is_time_over(program_begun, steps_before, programs_left);
}

/* Runs by the choices of the path, and then with up to so many more behind them. */
static void try_path(size_t length, size_t more) {
    size_t first = length > 0 ? path[length - 1].place + 1 : 0;
    search_schedule schedule = {0, TIMELESS, 1, 1, path, length};
    run_once(&schedule);
    runs++;
    if (search_made.last >= MOST_TOLD) search_fail("a run of too many places");
    if (first < search_made.first) first = search_made.first;
    size_t last = search_made.last, count = more > 0 && last > first ? last - first : 0;
    if (most_places < last - search_made.first) most_places = last - search_made.first;
    search_place *places = malloc((count + 1) * sizeof *places);
    if (places == NULL) search_fail("no memory");
    memcpy(places, &search_made.at[first], count * sizeof *places);
    for (size_t i = 0; i < count; i++)
        for (uint32_t task = 0; task <= TIME && !is_cut_short(); task++) {
            if ((places[i].able >> task & 1) == 0 || task == places[i].usual) continue;
            path[length] = (search_choice){(uint32_t)(first + i), task};
            try_path(length + 1, more - 1);
        }
    free(places);
}

/* By one choice more after each, so that what few show is found first. */
static void run_small(uint64_t first, uint64_t end) {
    tells = true;
    for (uint64_t seed = first; seed < end; seed++) {
        seed_now = seed;
        program_begun = seconds_now();
        program_used = used_seconds();
        steps_before = all_steps;
        programs_left = end - seed;
        runs = most_places = 0;
        program_make(&made, seed);
        size_t choices = 0;
        uint64_t before = 0;
        for (; choices <= MOST_CHOICES && !is_cut_short(); choices++) before = runs, try_path(0, choices);
        printf("%s: ", program_name(seed));
        if (is_cut_short())
            printf("%llu schedules by %zu other choices at most, and not all of these\n", (unsigned long long)(runs - before), choices - 1);
        else
            printf("all %llu schedules by two other choices at most, of %zu places, in %.1f s of a processor\n", (unsigned long long)(runs - before),
                   most_places, used_seconds() - program_used);
        fflush(stdout);
    }
}

/* ---- one program ---- */

static void leave_out(program *it, const char *list) {
    for (const char *at = list; *at != 0; at += *at == ',') {
        char *end;
        unsigned long deed = strtoul(at, &end, 10);
        if (end == at) break;
        if (deed < it->count) it->deeds[deed].is_left_out = true;
        at = end;
    }
}

static size_t read_choices(const char *list, search_choice *choices) {
    size_t count = 0;
    for (const char *at = list; *at != 0 && count < MOST_TOLD; at += *at == ',') {
        unsigned place, task;
        int length = 0;
        if (sscanf(at, "%u:%u%n", &place, &task, &length) != 2) break;
        choices[count++] = (search_choice){place, task};
        at += length;
    }
    return count;
}

static void run_one(uint64_t seed, uint64_t tries, const char *left_out, const char *choices) {
    static search_choice told[MOST_TOLD];
    tells = true;
    seed_now = seed;
    program_make(&made, seed);
    leave_out(&made, left_out);
    program_print(&made);
    fflush(stdout);
    search_schedule schedule = schedule_of(&made, seed);
    search_kind kind = seed < SMALL_PROGRAMS ? TIMELESS : AS_TOLD;
    if (choices != NULL) schedule = (search_schedule){0, kind, 1, 1, told, read_choices(choices, told)};
    if (tries == 0) run_once(&schedule);
    for (uint64_t i = 1; i <= tries; i++) {
        schedule = schedule_of(&made, seed + i * 1000003);
        run_once(&schedule);
    }
    puts("none wrong");
}

static uint64_t number(int count, char **words, int at, uint64_t usual) {
    return at < count ? strtoull(words[at], NULL, 10) : usual;
}

static void bound(uint64_t seconds, uint64_t most) {
    last_second = seconds_now() + (double)seconds;
    most_steps = most;
}

int main(int count, char **words) {
    const uint64_t long_time = 1000000;
    (void)mallopt(M_MMAP_THRESHOLD, 1 << 30); /* each run takes the same room again */
    (void)mallopt(M_TRIM_THRESHOLD, 1 << 30);
    watch_signals();
    const char *what = count > 1 ? words[1] : "";
    sectors_tear = strcmp(what, "tearing") == 0;
    if (strcmp(what, "programs") == 0 || sectors_tear) {
        bound(number(count, words, 4, long_time), number(count, words, 5, UINT64_MAX));
        run_programs(number(count, words, 2, SMALL_PROGRAMS), number(count, words, 3, 1000));
    } else if (strcmp(what, "small") == 0) {
        bound(number(count, words, 2, 60), number(count, words, 3, UINT64_MAX));
        most_runs = number(count, words, 4, UINT64_MAX);
        uint64_t one = number(count, words, 5, SMALL_PROGRAMS);
        run_small(one < SMALL_PROGRAMS ? one : 0, one < SMALL_PROGRAMS ? one + 1 : SMALL_PROGRAMS);
    } else if (strcmp(what, "one") == 0) {
        run_one(number(count, words, 2, SMALL_PROGRAMS), number(count, words, 3, 0), count > 4 ? words[4] : "", count > 5 ? words[5] : NULL);
    } else {
        return 2;
    }
    return 0;
}
