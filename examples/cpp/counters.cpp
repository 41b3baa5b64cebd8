/* A counter service: four threads count, each in a counter of its own and in the total, in one section. Killed at any time and started
 * again on the same file, the total is the sum of its parts, and no less than the total before and what was told as acknowledged since.
 *
 *     counters FILE [SECONDS]
 * prints the counters that it finds, and then how many counts are acknowledged since, again and again. It counts for so long, or for ever,
 * closes the heap, and prints the counters again. */
#include <atomic>
#include <cstdlib>
#include <iostream>
#include <sstream>
#include <thread>
#include "zelamiku.hpp"

using Counter = zelamiku::Field<std::uint64_t>;
constexpr unsigned WORKERS = 4;

struct Counters : zelamiku::Plan {
    zelamiku::Object all = object();
    Counter total = field<std::uint64_t>(all);
    zelamiku::Object worker[WORKERS] = {object(), object(), object(), object()};
    Counter own[WORKERS] = {field<std::uint64_t>(worker[0]), field<std::uint64_t>(worker[1]), field<std::uint64_t>(worker[2]),
                            field<std::uint64_t>(worker[3])};
};

static const Counters counters;
static std::atomic<bool> is_over{false};

static void count(zelamiku::Session &session, unsigned i) {
    const auto add = [&](Counter counter) { session.store(counter, session.load(counter) + 1); };
    while (!is_over) {
        auto both = session.enter({counters.all, counters.worker[i]}); // sleeps while another thread has one; a section begins
        add(counters.own[i]);
        add(counters.total);
        both.exit(); // it ends; without this it is taken back
    }
}

static std::string look(zelamiku::Session &session) {
    std::vector<zelamiku::Object> all(std::begin(counters.worker), std::end(counters.worker));
    all.push_back(counters.all);
    const auto held = session.enter({all.begin(), all.end()}); // it only loads, so its end may take it back
    std::ostringstream text;
    text << "total " << session.load(counters.total);
    for (unsigned i = 0; i < WORKERS; i++) text << (i == 0 ? " = " : " + ") << session.load(counters.own[i]);
    return text.str();
}

int main(int argc, char **argv) try {
    if (argc < 2) return std::cerr << "counters FILE [SECONDS]\n", 2;
    zelamiku::Heap heap(argv[1], counters); // made, or recovered
    zelamiku::Session own(heap); // one for each thread
    std::cout << look(own) << std::endl;
    std::vector<zelamiku::Session> sessions;
    std::vector<std::thread> threads;
    for (unsigned i = 0; i < WORKERS; i++) sessions.emplace_back(heap);
    for (unsigned i = 0; i < WORKERS; i++) threads.emplace_back(count, std::ref(sessions[i]), i);
    const auto end = std::chrono::steady_clock::now() + std::chrono::duration<double>(argc > 2 ? std::atof(argv[2]) : 1e9);
    while (std::chrono::steady_clock::now() < end) {
        std::uint64_t sum = 0;
        for (const auto &session : sessions) sum += session.progress().durable;
        if (sum > 0) std::cout << "acknowledged " << sum << std::endl;
        std::this_thread::sleep_for(std::chrono::milliseconds(10));
    }
    is_over = true;
    for (auto &thread : threads) thread.join();
    const auto last = look(own);
    own.durable(); // sleeps until no crash loses what the thread has done and seen
    std::cout << last << std::endl;
} catch (const zelamiku::Error &error) {
    std::cerr << error.what() << std::endl;
    return 2;
}
