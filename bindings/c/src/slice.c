/* Short time slices and short naps, for threads that make rounds or wait for them. Nothing here is shared, and there is no lock. */
/* ---- slices ---- */

/* Since Linux 6.12 a thread may say how long its time slice should be (sched_setattr). A thread that asks for a short slice runs soon after it
 * is woken, even if other threads keep all processors busy: otherwise each sync costs it a tick, mostly of 4 milliseconds. Its share of the
 * processors stays. It needs no privilege. */
typedef struct {
    uint32_t size, policy;
    uint64_t flags;
    int32_t nice;
    uint32_t priority;
    uint64_t runtime, deadline, period;
} attributes;

_Static_assert(sizeof(attributes) == 48, "what Linux 3.14 takes, and each later one");

static bool get_attributes(attributes *of) {
    memset(of, 0, sizeof *of);
    return syscall(SYS_sched_getattr, 0, of, sizeof *of, 0) == 0 && of->policy == SCHED_OTHER;
}

static bool set_slice(const attributes *of, uint64_t nanoseconds) {
    attributes wanted = *of;
    wanted.size = sizeof wanted;
    wanted.flags &= 1; /* its children's are reset, or not, as before */
    wanted.runtime = nanoseconds;
    return syscall(SYS_sched_setattr, 0, &wanted, 0) == 0;
}

/* Whether system calls go through a filter, which may end the process for a call that it doesn't know. */
static bool is_filtered(void) {
    int mode = prctl(PR_GET_SECCOMP);
    return mode > 0 || (mode < 0 && errno != EINVAL);
}

/* Asks for a short slice if the calling thread has the default one. Whether it has it is found out by reading it. */
static void ask_for_short_slice(void) {
    attributes before, usual;
    if (!get_attributes(&before) || before.runtime == 0 || !set_slice(&before, 0)) return;
    bool is_usual = get_attributes(&usual) && usual.runtime == before.runtime;
    (void)set_slice(&before, is_usual ? SHORT_SLICE : before.runtime);
}

/* The system may end a sleep late, by a thread's slack. Asks for the least if the calling thread has the default one, which is longer than a
 * nap. */
static void ask_for_least_slack(void) {
    if (prctl(PR_GET_TIMERSLACK, 0ul, 0ul, 0ul, 0ul) == USUAL_SLACK) (void)prctl(PR_SET_TIMERSLACK, 1ul, 0ul, 0ul, 0ul);
}

COLD void ask_to_run_soon(void) {
    if (is_filtered()) return;
    ask_for_short_slice();
    ask_for_least_slack();
}

/* Once for each thread, whichever heaps it uses. */
static void run_soon(void) {
    static _Thread_local bool has_asked;
    if (has_asked) return;
    has_asked = true;
    ask_to_run_soon();
}
