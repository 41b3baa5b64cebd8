// Moves 10 from one account to another, each time that it runs.
#include <iostream>
#include "zelamiku.hpp"

struct Accounts : zelamiku::Plan {
    zelamiku::Object alice = object(), bob = object();
    zelamiku::Field<std::int64_t> from = field<std::int64_t>(alice, 100), to = field<std::int64_t>(bob);
};

int main() {
    const Accounts accounts;
    zelamiku::Heap heap("accounts.heap", accounts); // made, or recovered
    zelamiku::Session session(heap); // one for each thread
    {
        auto both = session.enter({accounts.alice, accounts.bob}); // a section
        if (session.load(accounts.from) >= 10) {
            session.store(accounts.from, session.load(accounts.from) - 10);
            session.store(accounts.to, session.load(accounts.to) + 10);
        }
        std::cout << session.load(accounts.from) << ' ' << session.load(accounts.to) << '\n';
        both.exit(); // whatever leaves the block before takes the section back
    }
    session.durable(); // returns when no crash can lose it
}
