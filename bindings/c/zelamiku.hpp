/* Zelamiku for C++17, over zelamiku.h; examples/cpp/counters.cpp is a program. Other calls are C's, with the handle from number().
 *
 *     struct Accounts : zelamiku::Plan {
 *         zelamiku::Object alice = object();
 *         zelamiku::Field<std::int64_t> balance = field<std::int64_t>(alice, 100);
 *     } const accounts;
 *     zelamiku::Heap heap("accounts.heap", accounts);                            // made, or recovered
 *     zelamiku::Session session(heap);                                           // one for each thread
 *     session.synchronized(accounts.alice, [&] {                                 // a section
 *         session.store(accounts.balance, session.load(accounts.balance) - 10);
 *     });
 *     session.durable();                                                         // returns when no crash can lose it
 *
 * A call that fails throws an Error, and has done nothing. Destructors throw nothing. A moved-from object reports NOTHING.
 * A section keeps its stores if each of its guards has ended by exit(), and the work of each `synchronized` has returned. If a guard is
 * destroyed earlier, by an exception, a return or the end of its thread, it reverts the whole section (zelamiku_thread_revert), and then frees
 * its monitors. If an outer guard remains, its section can't store, wait or exit() any more: each throws NOTHING. A section that has only loaded
 * needs no exit(), if it has one guard. A section that can't be reverted stops the heap instead (zelamiku_heap_stop, ABANDONED), and the next opening
 * drops it: one that has freed a monitor under which it had stored, or one that has stored while the plan's `reverts` is 0. So take a section's
 * monitors together: `enter({a, b})`.
 * One thread at a time uses a session and its guards. A session outlives its guards, and isn't moved while it has any. */
#ifndef ZELAMIKU_HPP
#define ZELAMIKU_HPP
#include <cassert>
#include <cerrno>
#include <chrono>
#include <cstring>
#include <initializer_list>
#include <optional>
#include <stdexcept>
#include <string>
#include <type_traits>
#include <utility>
#include <vector>
#include "zelamiku.h"
namespace zelamiku {
struct Error : std::runtime_error {
    zelamiku_status status;
    int cause; /* errno, or 0 */
    Error(zelamiku_status of, const char *text, int error = 0) : std::runtime_error(text), status(of), cause(error) {}
};
inline void must(zelamiku_status status) {
    if (status == ZELAMIKU_OK) return;
    zelamiku_failure failure{};
    failure.size = sizeof failure;
    const char *text = zelamiku_heap_failure(&failure);
    throw Error(status, text, failure.error);
}
inline void drop(zelamiku_status) noexcept {}
struct Object { std::uint32_t number; };
template <class T> struct Field { /* an integer of 64 bits, a double or an enum, each by its bits */
    static_assert(std::is_same_v<T, double> || std::is_enum_v<T> || (std::is_integral_v<T> && sizeof(T) == 8));
    std::uint32_t number;
    static std::uint64_t bits(T value) noexcept {
        std::uint64_t bits = 0;
        std::memcpy(&bits, &value, sizeof value);
        return bits;
    }
    static T value(std::uint64_t bits) {
        T value{};
        std::memcpy(&value, &bits, sizeof value);
        return Field::bits(value) == bits ? value : throw Error(ZELAMIKU_DAMAGED, "the field has more bits than its enum");
    }
};
struct Plan : zelamiku_plan { /* objects and fields are numbered as they are declared, best by the members of a class over this */
    std::vector<zelamiku_field> rows;
    Plan() : zelamiku_plan{} {
        size = sizeof(zelamiku_plan);
        reverts = 1;
    }
    Object object() { return {objects++}; }
    template <class T> Field<T> field(Object guard, std::common_type_t<T> first = T{}, bool is_transient = false) {
        rows.push_back({guard.number, guard.number, Field<T>::bits(first), is_transient});
        return {static_cast<std::uint32_t>(rows.size() - 1)};
    }
};

class Heap {
    zelamiku_heap heap_{};
public:
    Heap(const std::string &path, Plan plan, zelamiku_report *report = nullptr) {
        plan.fields = plan.rows.data();
        plan.count = static_cast<std::uint32_t>(plan.rows.size());
        if (report != nullptr) report->size = sizeof *report;
        if (path.find('\0') != path.npos) throw Error(ZELAMIKU_DEVICE, "open: the path has a zero byte", EINVAL);
        must(zelamiku_heap_open(&heap_, path.c_str(), &plan, report));
    }
    explicit Heap(zelamiku_heap heap) noexcept : heap_(heap) {} /* one that C has opened */
    Heap(Heap &&other) noexcept : heap_(std::exchange(other.heap_, {})) {}
    Heap &operator=(Heap other) noexcept { return std::swap(heap_, other.heap_), *this; }
    ~Heap() { /* if it can't be closed, open sections are cut off as by a crash */
        if (heap_.number != 0 && zelamiku_heap_close(heap_) != ZELAMIKU_OK) drop(zelamiku_heap_stop(heap_, ZELAMIKU_CLOSED));
    }
    void close() { must(zelamiku_heap_close(heap_)); }
    zelamiku_heap number() const noexcept { return heap_; }
};

struct Objects { /* one, or several: each once, in the order of their numbers, so no two threads wait for each other's */
    std::uint32_t numbers[ZELAMIKU_MOST_HELD]{};
    unsigned count = 0;
    Objects(Object one) { add(one); }
    Objects(std::initializer_list<Object> all) : Objects(all.begin(), all.end()) {}
    template <class Place> Objects(Place begin, Place end) {
        for (; begin != end; ++begin) add(*begin);
        if (count == 0) throw Error(ZELAMIKU_BAD_ARGUMENT, "enter: no object is named");
    }
private:
    void add(Object one) {
        unsigned place = count;
        while (place > 0 && numbers[place - 1] > one.number) place--;
        if (place > 0 && numbers[place - 1] == one.number) return;
        if (count == ZELAMIKU_MOST_HELD) throw Error(ZELAMIKU_TOO_MANY, "enter: more than 16 objects are named");
        for (unsigned i = count++; i > place; i--) numbers[i] = numbers[i - 1];
        numbers[place] = one.number;
    }
};
struct Lane { /* what a session shares with its guards */
    zelamiku_heap heap;
    zelamiku_thread thread;
    unsigned guards;
    bool is_taken_back; /* the open section */
    static void must_go_on(bool goes_on) {
        if (!goes_on) throw Error(ZELAMIKU_NOTHING, "the section was taken back when a guard ended without exit(), or the guard has ended");
    }
    zelamiku_status take(const Objects &of, std::uint64_t deadline) noexcept { /* all, or none */
        for (unsigned i = 0; i < of.count; i++) {
            const std::uint32_t next = of.numbers[i];
            const bool sleeps = deadline == ZELAMIKU_NO_DEADLINE;
            const zelamiku_status status = sleeps ? zelamiku_thread_enter(thread, next) : zelamiku_thread_enter_until(thread, next, deadline);
            if (status != ZELAMIKU_OK) return drop(leave(of, i)), status;
        }
        return ZELAMIKU_OK;
    }
    zelamiku_status leave(const Objects &of, unsigned count) noexcept { /* the first so many */
        zelamiku_status status = ZELAMIKU_OK;
        while (status == ZELAMIKU_OK && count > 0) status = zelamiku_thread_exit(thread, of.numbers[--count]);
        return status;
    }
    void take_back() noexcept { /* if the heap has ended, the section is cut off in any case */
        const zelamiku_status status = zelamiku_thread_revert(thread);
        is_taken_back = status == ZELAMIKU_OK;
        if (status == ZELAMIKU_NOT_HELD || status == ZELAMIKU_NOT_REVERTED) drop(zelamiku_heap_stop(heap, ZELAMIKU_ABANDONED));
    }
};
class [[nodiscard]] Guard { /* holds monitors, until exit() keeps the section's stores, or its destructor reverts them */
    friend class Session;
    Lane *lane_; /* NULL once it has ended */
    Objects objects_;
    Guard(Lane *lane, const Objects &of) noexcept : lane_(lane), objects_(of) { lane->guards++; }
    zelamiku_status leave() noexcept {
        Lane *lane = std::exchange(lane_, nullptr);
        if (--lane->guards == 0) lane->is_taken_back = false;
        return lane->leave(objects_, objects_.count);
    }
public:
    Guard(Guard &&other) noexcept : lane_(std::exchange(other.lane_, nullptr)), objects_(other.objects_) {}
    ~Guard() {
        if (lane_ == nullptr) return;
        lane_->take_back();
        drop(leave());
    }
    void exit() { /* frees the monitors. With the section's last ones its stores stay */
        const bool goes_on = lane_ != nullptr && !lane_->is_taken_back;
        if (lane_ != nullptr) must(leave());
        Lane::must_go_on(goes_on);
    }
};

class Session : Lane { /* a thread's use of the heap */
public:
    explicit Session(const Heap &of) : Lane{of.number(), {}, 0, false} { must(zelamiku_thread_begin(&thread, heap)); }
    Session(Session &&other) noexcept : Lane{other.heap, std::exchange(other.thread, {}), 0, false} { assert(other.guards == 0); }
    ~Session() { /* a guard that was never destroyed has left a section open */
        if (thread.number != 0 && zelamiku_thread_end(thread) == ZELAMIKU_RUNNING) drop(zelamiku_heap_stop(heap, ZELAMIKU_ABANDONED));
    }
    zelamiku_thread number() const noexcept { return thread; }
    zelamiku_progress progress() const {
        zelamiku_progress progress{};
        progress.size = sizeof progress;
        return must(zelamiku_thread_progress(thread, &progress)), progress;
    }
    Guard enter(const Objects &of) & { /* sleeps while another thread has a monitor */
        return must(take(of, ZELAMIKU_NO_DEADLINE)), Guard(this, of);
    }
    std::optional<Guard> try_enter(const Objects &of, std::chrono::nanoseconds time = {}) & { /* the same, for so long at most */
        const zelamiku_status status = take(of, zelamiku_now() + std::uint64_t(time.count() > 0 ? time.count() : 0));
        if (status == ZELAMIKU_HELD || status == ZELAMIKU_BEHIND) return std::nullopt;
        return must(status), Guard(this, of);
    }
    Guard enter(const Objects &of) && = delete; /* the guard would outlive the session */
    std::optional<Guard> try_enter(const Objects &of, std::chrono::nanoseconds time = {}) && = delete;
    template <class Work> auto synchronized(const Objects &of, Work &&work) -> decltype(work()) {
        Guard guard = enter(of);
        if constexpr (std::is_void_v<decltype(work())>) return work(), guard.exit();
        else {
            decltype(work()) answer = work();
            guard.exit();
            return answer;
        }
    }
    template <class T> T load(Field<T> field) const {
        std::uint64_t bits = 0;
        return must(zelamiku_thread_load(thread, field.number, &bits)), Field<T>::value(bits);
    }
    template <class T> void store(Field<T> field, std::common_type_t<T> value) {
        must_go_on(!is_taken_back), must(zelamiku_thread_store(thread, field.number, Field<T>::bits(value)));
    }
    void wait(Object object) { must_go_on(!is_taken_back), must(zelamiku_thread_wait(thread, object.number)); }
    void notify_all(Object object) { must(zelamiku_thread_notify(thread, object.number, true, nullptr)); }
    void durable() { must(zelamiku_thread_await(thread)); } /* sleeps until no crash loses what the thread has done */
};
} // namespace zelamiku
#endif
