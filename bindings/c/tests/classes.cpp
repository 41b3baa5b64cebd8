/* Tests of zelamiku.hpp: what a guard's end leaves of a section, guards and sessions that are moved or never destroyed, fields of each kind,
 * errors, waits, and threads whose sections fail by chance.
 *
 *     classes FOLDER      answers 0 where all is as it must be */
#include <array>
#include <atomic>
#include <cerrno>
#include <csignal>
#include <cmath>
#include <cstdio>
#include <cstdlib>
#include <limits>
#include <memory>
#include <new>
#include <pthread.h>
#include <random>
#include <sys/wait.h>
#include <thread>
#include <unistd.h>
#include "zelamiku.hpp"

#define MUST(is_so) \
    do { \
        if (!(is_so)) { \
            std::fprintf(stderr, "line %d: %s: %s\n", __LINE__, #is_so, zelamiku_heap_failure(NULL)); \
            std::exit(1); \
        } \
    } while (0)

using namespace std::chrono_literals;
using zelamiku::Error;
using zelamiku::Field;
using zelamiku::Guard;
using zelamiku::Heap;
using zelamiku::Object;
using zelamiku::Session;

template <class T> constexpr bool is_move_only =
    !std::is_copy_constructible_v<T> && !std::is_copy_assignable_v<T> && std::is_nothrow_move_constructible_v<T>;
static_assert(is_move_only<Heap> && is_move_only<Session> && is_move_only<Guard>);
static_assert(std::is_nothrow_destructible_v<Heap> && std::is_nothrow_destructible_v<Session> && std::is_nothrow_destructible_v<Guard>);
static_assert(std::is_nothrow_move_assignable_v<Heap> && std::is_nothrow_copy_constructible_v<Error>);

/* A guard of a temporary session would outlive it. */
template <class S, class = void> constexpr bool enters = false;
template <class S, class = void> constexpr bool tries_enter = false;
template <class S> constexpr bool enters<S, std::void_t<decltype(std::declval<S>().enter(Object{}))>> = true;
template <class S> constexpr bool tries_enter<S, std::void_t<decltype(std::declval<S>().try_enter(Object{}))>> = true;
static_assert(enters<Session &> && tries_enter<Session &> && !enters<Session> && !tries_enter<Session>);

static const char *const PATH = "classes.heap";

/* What a section must not lose, and no program else throws. */
struct Refused {};

struct Accounts : zelamiku::Plan {
    Object alice = object(), bob = object();
    Field<std::int64_t> from = field<std::int64_t>(alice, 100), to = field<std::int64_t>(bob, -100);
    Accounts() { lanes = 6; }
};
static const Accounts accounts;

static Heap open_anew() {
    MUST(unlink(PATH) == 0 || errno == ENOENT);
    return Heap(PATH, accounts);
}

/* The status of the Error that the call throws; OK where it throws none. */
template <class Call> zelamiku_status thrown(Call call) {
    try {
        call();
    } catch (const Error &error) {
        MUST(*error.what() != '\0');
        return error.status;
    }
    return ZELAMIKU_OK;
}

struct Balances {
    std::int64_t from, to;
    bool operator==(const Balances &other) const { return from == other.from && to == other.to; }
};

static Balances seen(Session &session) {
    return session.synchronized(accounts.alice, [&] {
        return session.synchronized(accounts.bob, [&] { return Balances{session.load(accounts.from), session.load(accounts.to)}; });
    });
}

static Balances seen(const Heap &heap) {
    Session session(heap);
    return seen(session);
}

static void move_ten(Session &session) {
    session.store(accounts.from, session.load(accounts.from) - 10);
    session.store(accounts.to, session.load(accounts.to) + 10);
}

static void sections() {
    Heap heap = open_anew();
    Session session(heap);
    session.synchronized(accounts.alice, [&] { session.synchronized(accounts.bob, [&] { move_ten(session); }); });
    {
        Guard alice = session.enter(accounts.alice), bob = session.enter(accounts.bob);
        move_ten(session);
        bob.exit();
        alice.exit();
    }
    Guard both = session.enter({accounts.bob, accounts.alice, accounts.bob});
    move_ten(session);
    both.exit();
    session.synchronized({accounts.alice, accounts.bob}, [&] { move_ten(session); });
    MUST((seen(session) == Balances{60, -60}));
    session.durable();
    heap.close();
    MUST(thrown([&] { heap.close(); }) == ZELAMIKU_CLOSED || thrown([&] { heap.close(); }) == ZELAMIKU_NOTHING);
    zelamiku_report report{};
    Heap again(PATH, accounts, &report);
    MUST(report.is_made == 0 && report.dropped == 0);
    MUST((seen(again) == Balances{60, -60}));
    MUST(thrown([] { const Heap other(std::string(PATH) + '\0', accounts); }) == ZELAMIKU_DEVICE);
}

/* By what a section may be left: the work of a nested synchronized, a guard, a guard in a function below, a guard of all, its good end. */
static void fail_in_work(Session &session) {
    session.synchronized(accounts.alice, [&] {
        session.store(accounts.from, 1);
        session.synchronized(accounts.bob, [&] {
            session.store(accounts.to, 2);
            throw Refused();
        });
    });
}

static void fail_in_guards(Session &session) {
    const Guard alice = session.enter(accounts.alice), bob = session.enter(accounts.bob);
    session.store(accounts.from, 1);
    session.store(accounts.to, 2);
    throw Refused();
}

static void fail_in_vector(Session &session) {
    std::vector<Guard> held;
    for (const Object each : {accounts.alice, accounts.bob}) held.push_back(session.enter(each));
    session.store(accounts.from, 1);
    session.store(accounts.to, 2);
    throw Refused();
}

static void fail_in_all(Session &session) {
    const Guard both = session.enter({accounts.alice, accounts.bob});
    session.store(accounts.from, 1);
    session.store(accounts.to, 2);
    throw Refused();
}

static void forget_exit(Session &session) {
    {
        const Guard both = session.enter({accounts.alice, accounts.bob});
        session.store(accounts.from, 1);
        session.store(accounts.to, 2);
    }
    throw Refused();
}

static void fail_below(Session &session) {
    const Guard alice = session.enter(accounts.alice);
    session.store(accounts.from, 1);
    fail_in_guards(session);
}

static void taken_back() {
    Heap heap = open_anew();
    Session session(heap), other(heap);
    for (const auto fail : {fail_in_work, fail_in_guards, fail_in_vector, fail_in_all, forget_exit, fail_below}) {
        bool is_refused = false;
        try {
            fail(session);
        } catch (const Refused &) {
            is_refused = true;
        }
        MUST(is_refused);
        MUST(other.try_enter(accounts.alice).has_value() && other.try_enter(accounts.bob).has_value());
        MUST((seen(other) == Balances{100, -100}));
    }
    /* The heap goes on, and so does the session. */
    session.synchronized(accounts.alice, [&] { session.store(accounts.from, 5); });
    session.durable();
    MUST((seen(other) == Balances{5, -100}));
    /* What the library refuses is an exception too. */
    MUST(thrown([&] {
             session.synchronized(accounts.alice, [&] {
                 session.store(accounts.from, 6);
                 session.store(accounts.to, 6);
             });
         }) == ZELAMIKU_NOT_HELD);
    MUST((seen(other) == Balances{5, -100}));
    /* Caught where it was thrown it takes nothing back. */
    session.synchronized(accounts.alice, [&] {
        session.store(accounts.from, 7);
        MUST(thrown([&] { session.store(accounts.to, 6); }) == ZELAMIKU_NOT_HELD);
        MUST(thrown([&] { const Guard none = session.enter(Object{2}); }) == ZELAMIKU_UNKNOWN_OBJECT);
    });
    MUST((seen(other) == Balances{7, -100}));
}

/* A section that a destructor makes while an exception is underway is as any other, also where a second exception comes in it. */
struct AtEnd {
    Session &session;
    bool fails = false;
    ~AtEnd() {
        try {
            Guard alice = session.enter(accounts.alice);
            session.store(accounts.from, session.load(accounts.from) + 1);
            if (fails) throw Refused();
            alice.exit();
        } catch (const Refused &) {
        }
    }
};

static void in_destructors() {
    Heap heap = open_anew();
    Session session(heap);
    for (const bool fails : {true, false}) {
        try {
            const AtEnd end{session, fails};
            throw Refused();
        } catch (const Refused &) {
            const AtEnd end{session, fails};
        }
        MUST((seen(session) == Balances{fails ? 100 : 102, -100}));
    }
}

static void caught_inside() {
    Heap heap = open_anew();
    Session session(heap), other(heap);
    const auto fail = [&] {
        session.store(accounts.from, 1);
        try {
            const Guard bob = session.enter(accounts.bob);
            session.store(accounts.to, 2);
            throw Refused();
        } catch (const Refused &) {
            MUST(session.load(accounts.from) == 100);
        }
        MUST(other.try_enter(accounts.bob).has_value() && !other.try_enter(accounts.alice).has_value());
    };
    /* It stores and waits no more, and its good end is refused. */
    MUST(thrown([&] {
             session.synchronized(accounts.alice, [&] {
                 fail();
                 MUST(thrown([&] { session.store(accounts.from, 3); }) == ZELAMIKU_NOTHING);
                 MUST(thrown([&] { session.wait(accounts.alice); }) == ZELAMIKU_NOTHING);
             });
         }) == ZELAMIKU_NOTHING);
    Guard alice = session.enter(accounts.alice);
    fail();
    MUST(thrown([&] { alice.exit(); }) == ZELAMIKU_NOTHING && thrown([&] { alice.exit(); }) == ZELAMIKU_NOTHING);
    MUST((seen(other) == Balances{100, -100}));
    {
        const Guard silent = session.enter(accounts.alice);
        fail();
    }
    MUST((seen(other) == Balances{100, -100}));
    /* The next section is none of that. */
    session.synchronized(accounts.alice, [&] { session.store(accounts.from, 3); });
    MUST((seen(other) == Balances{3, -100}));
}

/* The heap stops where a section can't be taken back, and the next opening drops it. */
static void must_stop(const zelamiku::Plan &plan, void (*fail)(Session &)) {
    MUST(unlink(PATH) == 0 || errno == ENOENT);
    {
        Heap heap(PATH, plan);
        Session session(heap), other(heap);
        other.synchronized(accounts.alice, [&] { other.store(accounts.from, 50); });
        try {
            fail(session);
            MUST(false);
        } catch (const Refused &) {
        }
        MUST(thrown([&] { const Guard alice = other.enter(accounts.alice); }) == ZELAMIKU_ABANDONED);
        MUST(thrown([&] { session.durable(); }) == ZELAMIKU_ABANDONED);
    }
    MUST((seen(Heap(PATH, plan)) == Balances{50, -100}));
}

static void not_taken_back() {
    must_stop(accounts, [](Session &session) {
        const Guard alice = session.enter(accounts.alice);
        session.synchronized(accounts.bob, [&] { session.store(accounts.to, 2); });
        session.store(accounts.from, 1);
        throw Refused();
    });
    Accounts plain;
    plain.reverts = 0;
    must_stop(plain, fail_in_guards);
    must_stop(plain, fail_in_work);
    must_stop(plain, forget_exit);
    /* One that has only loaded has nothing to take back. */
    MUST(unlink(PATH) == 0 || errno == ENOENT);
    const Heap heap(PATH, plain);
    Session session(heap);
    for (int i = 0; i < 2; i++) {
        const Guard alice = session.enter(accounts.alice);
        MUST(session.load(accounts.from) == 100);
    }
}

/* Guards hand over: what was only read under a monitor that is free again may be taken back. */
static void hand_over_hand() {
    const Heap heap = open_anew();
    Session session(heap), other(heap);
    for (const bool is_kept : {false, true}) {
        Guard alice = session.enter(accounts.alice);
        const std::int64_t from = session.load(accounts.from);
        Guard bob = session.enter(accounts.bob);
        alice.exit();
        MUST(other.try_enter(accounts.alice).has_value());
        session.store(accounts.to, from);
        if (is_kept) bob.exit();
    }
    MUST((seen(session) == Balances{100, 100}));
    /* Several are taken in one order, and all or none of them. */
    MUST(thrown([&] { (void)session.enter({}); }) == ZELAMIKU_BAD_ARGUMENT);
    const std::vector<Object> one{accounts.bob, Object{2}, accounts.alice};
    MUST(thrown([&] { (void)session.enter({one.begin(), one.end()}); }) == ZELAMIKU_UNKNOWN_OBJECT);
    std::vector<Object> many;
    for (std::uint32_t i = 0; i < 17; i++) many.push_back({16 - i});
    MUST(thrown([&] { (void)session.enter({many.begin(), many.end()}); }) == ZELAMIKU_TOO_MANY);
    const std::vector<Object> same(17, accounts.alice);
    MUST(session.try_enter({same.begin(), same.end()}).has_value());
    {
        const Guard bob = other.enter(accounts.bob);
        MUST(!session.try_enter({accounts.bob, accounts.alice}).has_value() && other.try_enter(accounts.alice).has_value());
    }
    MUST(other.try_enter({accounts.alice, accounts.bob}).has_value());
}

/* Of a guard that is never destroyed the session's end tells, and of a section that is open the heap's. */
static void never_ended() {
    Heap heap = open_anew();
    Session other(heap);
    {
        Session session(heap);
        alignas(Guard) unsigned char place[sizeof(Guard)];
        new (place) Guard(session.enter(accounts.alice));
        session.store(accounts.from, 1);
    }
    MUST(thrown([&] { const Guard alice = other.enter(accounts.alice); }) == ZELAMIKU_ABANDONED);
    heap = open_anew();
    Session session(heap);
    const Guard alice = session.enter(accounts.alice);
    session.store(accounts.from, 1);
    MUST(thrown([&] { heap.close(); }) == ZELAMIKU_RUNNING);
    heap = Heap(zelamiku_heap{});
    MUST((seen(Heap(PATH, accounts)) == Balances{100, -100}));
}

static void moved() {
    Heap first = open_anew(), heap(std::move(first));
    MUST(thrown([&] { const Session none(first); }) == ZELAMIKU_NOTHING && thrown([&] { first.close(); }) == ZELAMIKU_NOTHING);
    std::vector<Session> sessions;
    for (unsigned i = 0; i < 6; i++) sessions.emplace_back(heap);
    MUST(thrown([&] { const Session none(heap); }) == ZELAMIKU_NONE_LEFT);
    for (Session &each : sessions) each.synchronized(accounts.alice, [&] { each.store(accounts.from, each.load(accounts.from) + 1); });
    MUST((seen(sessions[0]) == Balances{106, -100}));
    const Session taken(std::move(sessions[0]));
    MUST(thrown([&] { const Guard none = sessions[0].enter(accounts.alice); }) == ZELAMIKU_NOTHING);
    MUST(thrown([&] { sessions[0].store(accounts.from, 1); }) == ZELAMIKU_NOTHING);
    MUST(thrown([&] { (void)sessions[0].load(accounts.from); }) == ZELAMIKU_NOTHING);
    MUST(thrown([&] { sessions[0].durable(); }) == ZELAMIKU_NOTHING);
    sessions.clear();
    Session session(heap), other(heap);
    std::optional<Guard> kept;
    {
        Guard alice = session.enter(accounts.alice);
        kept.emplace(std::move(alice));
        MUST(thrown([&] { alice.exit(); }) == ZELAMIKU_NOTHING);
    }
    MUST(!other.try_enter(accounts.alice).has_value());
    kept.reset();
    MUST(other.try_enter(accounts.alice).has_value());
    /* A work may answer what can only be moved, and a reference. */
    MUST(*session.synchronized(accounts.alice, [&] { return std::make_unique<std::int64_t>(session.load(accounts.from)); }) == 106);
    int number = 7;
    session.synchronized(accounts.alice, [&]() -> int & { return number; }) = 8;
    MUST(number == 8);
}

/* ---- fields ---- */

enum class Color : std::uint8_t { RED, GREEN, BLUE = 255 };
enum class Step : int { BACK = -1, NONE, ON };
enum Large : std::uint64_t { NO, MOST = UINT64_MAX };

struct Kinds : zelamiku::Plan {
    Object all = object();
    Field<std::uint64_t> natural = field<std::uint64_t>(all, UINT64_MAX);
    Field<std::int64_t> integer = field<std::int64_t>(all, INT64_MIN);
    Field<double> real = field<double>(all, -0.0);
    Field<Color> color = field<Color>(all, Color::BLUE);
    Field<Step> step = field<Step>(all, Step::BACK);
    Field<Large> large = field<Large>(all, MOST);
    Field<std::uint64_t> other = field<std::uint64_t>(all), passing = field<std::uint64_t>(all, 9, true);
};

template <class T> bool keeps(Session &session, Field<T> field, std::initializer_list<std::common_type_t<T>> values) {
    for (const T value : values) {
        session.store(field, value);
        if (std::memcmp(&value, std::array<T, 1>{session.load(field)}.data(), sizeof value) != 0) return false;
    }
    return true;
}

static void fields() {
    const Kinds kinds;
    MUST(unlink(PATH) == 0 || errno == ENOENT);
    Heap heap(PATH, kinds);
    Session session(heap);
    Guard all = session.enter(kinds.all);
    MUST(session.load(kinds.natural) == UINT64_MAX && session.load(kinds.integer) == INT64_MIN && session.load(kinds.passing) == 9);
    MUST(session.load(kinds.real) == 0 && std::signbit(session.load(kinds.real)) && session.load(kinds.color) == Color::BLUE);
    MUST(session.load(kinds.step) == Step::BACK && session.load(kinds.large) == MOST && session.load(kinds.other) == 0);
    using Doubles = std::numeric_limits<double>;
    MUST(keeps(session, kinds.natural, {0, 1, UINT64_MAX}) && keeps(session, kinds.integer, {0, -1, INT64_MIN, INT64_MAX}));
    MUST(keeps(session, kinds.real, {0.1, -0.0, Doubles::infinity(), Doubles::denorm_min(), std::nan("77"), Doubles::max()}));
    MUST(keeps(session, kinds.color, {Color::RED, Color::GREEN, Color::BLUE}) && keeps(session, kinds.large, {NO, MOST}));
    MUST(keeps(session, kinds.step, {Step::BACK, Step::NONE, Step::ON}));
    /* The bits are those that C and the other languages see. */
    const Field<std::uint64_t> bits{kinds.real.number};
    session.store(kinds.real, 1.0);
    MUST(session.load(bits) == 0x3ff0000000000000);
    /* By another type more bits may be there than the enum has. */
    session.store(Field<std::uint64_t>{kinds.color.number}, 256);
    MUST(thrown([&] { (void)session.load(kinds.color); }) == ZELAMIKU_DAMAGED);
    MUST(thrown([&] { (void)session.load(Field<double>{8}); }) == ZELAMIKU_UNKNOWN_FIELD);
    session.store(kinds.passing, 1);
    all.exit();
    heap.close();
    heap = Heap(PATH, kinds);
    Session again(heap);
    const Guard guard = again.enter(kinds.all);
    MUST(again.load(kinds.passing) == 9 && again.load(kinds.real) == 1 && again.load(kinds.large) == MOST);
}

/* ---- errors ---- */

static void errors() {
    try {
        const Heap none("no-such-folder/accounts.heap", accounts);
        MUST(false);
    } catch (const std::exception &caught) {
        const auto &error = dynamic_cast<const Error &>(caught);
        MUST(error.status == ZELAMIKU_DEVICE && error.cause == ENOENT && std::strstr(error.what(), "no-such-folder") != nullptr);
    }
    const Heap heap = open_anew();
    MUST(thrown([] { const Heap none(PATH, accounts); }) == ZELAMIKU_BUSY);
    MUST(thrown([&] { zelamiku::must(zelamiku_heap_copy(heap.number(), "classes.copy")); }) == ZELAMIKU_OK);
    Accounts more;
    (void)more.object();
    zelamiku_report report{};
    MUST(thrown([&] { const Heap none("classes.copy", more, &report); }) == ZELAMIKU_OTHER_HEAP);
    MUST(report.difference == ZELAMIKU_DIFFERENT_OBJECTS && report.has == 2 && report.planned == 3);
    MUST(thrown([] { const Heap none("classes.copy", zelamiku::Plan()); }) != ZELAMIKU_OK);
    MUST((seen(Heap("classes.copy", accounts)) == Balances{100, -100}));
    /* Its texts are the exception's own: another call's failure leaves them. */
    Session session(heap);
    try {
        (void)session.load(accounts.from);
        MUST(false);
    } catch (const Error &error) {
        const std::string text = error.what();
        MUST(thrown([&] { const Guard none = session.enter(Object{99}); }) == ZELAMIKU_UNKNOWN_OBJECT);
        MUST(error.what() == text && error.status == ZELAMIKU_NOT_HELD && error.cause == 0);
    }
}

/* ---- threads ---- */

static void tries() {
    const Heap heap = open_anew();
    Session session(heap), other(heap);
    const Guard alice = session.enter(accounts.alice);
    const auto begin = std::chrono::steady_clock::now();
    MUST(!other.try_enter(accounts.alice).has_value() && !other.try_enter(accounts.alice, std::chrono::nanoseconds::min()).has_value());
    MUST(!other.try_enter(accounts.alice, 20ms).has_value());
    MUST(std::chrono::steady_clock::now() - begin >= 20ms);
    MUST(other.try_enter(accounts.bob, std::chrono::nanoseconds::max()).has_value());
    MUST(session.try_enter(accounts.alice).has_value()); /* one lock more */
    MUST(thrown([&] { (void)other.try_enter(Object{2}); }) == ZELAMIKU_UNKNOWN_OBJECT);
}

/* Money goes to and fro by a thread that waits for it. */
static void waits() {
    const Heap heap = open_anew();
    std::thread waiter([&] {
        Session session(heap);
        Guard alice = session.enter(accounts.alice);
        while (session.load(accounts.from) < 1000) session.wait(accounts.alice);
        session.store(accounts.from, 0);
        alice.exit();
    });
    Session session(heap);
    for (int i = 0; i < 90; i++)
        session.synchronized(accounts.alice, [&] {
            session.store(accounts.from, session.load(accounts.from) + 10);
            session.notify_all(accounts.alice);
        });
    waiter.join();
    MUST((seen(session) == Balances{0, -100}));
    MUST(thrown([&] { session.notify_all(accounts.alice); }) == ZELAMIKU_NOT_HELD);
    MUST(thrown([&] { session.wait(accounts.alice); }) == ZELAMIKU_NOT_HELD);
}

/* Each thread moves money, and leaves it between the two stores by an exception or without; no one ever sees a sum but 0. */
static void at_once() {
    constexpr int THREADS = 4, TIMES = 3000;
    const Heap heap = open_anew();
    std::atomic<int> moves{0};
    std::vector<std::thread> threads;
    for (unsigned i = 0; i < THREADS; i++)
        threads.emplace_back([&heap, &moves, i] {
            Session session(heap);
            std::minstd_rand chance(i + 1);
            for (int n = 0; n < TIMES; n++) {
                try {
                    Guard both = i % 2 == 0 ? session.enter({accounts.alice, accounts.bob}) : session.enter({accounts.bob, accounts.alice});
                    MUST(session.load(accounts.from) + session.load(accounts.to) == 0);
                    session.store(accounts.from, session.load(accounts.from) - 1);
                    if (chance() % 3 == 0) throw Refused();
                    if (chance() % 3 == 0) continue;
                    session.store(accounts.to, session.load(accounts.to) + 1);
                    both.exit();
                    moves++;
                } catch (const Refused &) {
                }
            }
            session.durable();
        });
    for (std::thread &thread : threads) thread.join();
    MUST((seen(heap) == Balances{100 - moves, moves - 100}));
    MUST(moves > 0 && moves < THREADS * TIMES);
}

/* A thread that ends within a work or a guard's block, by no exception. */
static void ends_inside() {
    const Heap heap = open_anew();
    std::thread([&] {
        Session session(heap);
        session.synchronized(accounts.alice, [&] {
            const Guard bob = session.enter(accounts.bob);
            session.store(accounts.from, 1);
            pthread_exit(nullptr);
        });
    }).join();
    MUST((seen(heap) == Balances{100, -100}));
}

/* What a killed process has waited for is there, and nothing of the section that it was in. */
static void killed() {
    (void)open_anew();
    const pid_t child = fork();
    MUST(child >= 0);
    if (child == 0) {
        const Heap heap(PATH, accounts);
        Session session(heap);
        session.synchronized(accounts.alice, [&] { session.store(accounts.from, 1); });
        session.durable();
        const Guard alice = session.enter(accounts.alice), bob = session.enter(accounts.bob);
        move_ten(session);
        raise(SIGKILL);
    }
    int status = 0;
    MUST(waitpid(child, &status, 0) == child && WIFSIGNALED(status));
    MUST((seen(Heap(PATH, accounts)) == Balances{1, -100}));
}

int main(int argc, char **argv) {
    MUST(argc == 2 && chdir(argv[1]) == 0);
    sections();
    taken_back();
    in_destructors();
    caught_inside();
    not_taken_back();
    hand_over_hand();
    never_ended();
    moved();
    fields();
    errors();
    tries();
    waits();
    at_once();
    ends_inside();
    killed();
    std::puts("zelamiku.hpp: sections, exceptions, moves, fields, errors, waits, threads");
    return 0;
}
