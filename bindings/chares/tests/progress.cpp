// Progress: what a PE does beside long handlers and slow PEs, counted in handlers and not in time; what is measured; and what a run says that
// ends early. On threads, or on the ranks of MPI.
#include "page.hpp"

#include <ctime>

using tests::expect;
using tests::word;

extern "C" {
int __real_clock_gettime(clockid_t which, timespec *now);
int __wrap_clock_gettime(clockid_t which, timespec *now);
}

namespace {

std::uint32_t pes = 1; // of the runs that come
std::atomic<std::uint64_t> readings{0}; // of the clock of a thread

tezgumi::settings usual()
{
    tezgumi::settings how;
    how.pes = pes;
    how.clock = tezgumi::clock_kind::none;
    return how;
}

std::string at(const std::string &name) { return name + ", " + std::to_string(pes) + " PEs"; }

} // namespace

int __wrap_clock_gettime(clockid_t which, timespec *now)
{
    if (which == CLOCK_THREAD_CPUTIME_ID) readings++;
    return __real_clock_gettime(which, now);
}

namespace {

// ---- A ping and its answer, on PEs whose handlers take 5 ms ----

// The first element of each PE has such handlers, the second pings or answers.
struct pinger : tezgumi::chare {
    using messages = tezgumi::messages<int, double>;
    static constexpr int pings = 4;
    std::uint64_t since = 0;
    int left = pings;
    void pup(pup::er &p) { p(since, left); }
    void resume(tezgumi::round, tezgumi::array<pinger> &all)
    {
        if (all.me() % 2 == 0) return all.self().send(0);
        if (all.me() != 1) finish();
        if (all.me() == 1) ping(all);
    }
    void ping(tezgumi::array<pinger> &all)
    {
        since = word(0);
        all[all.size() - 1].send(double(all.me()));
    }
    // A long handler, until the pings are over.
    void receive(int, tezgumi::array<pinger> &all)
    {
        tests::sleep(5);
        if (all.me() == 0) word(0)++;
        if (word(1) != 0) return finish();
        all.self().send(0);
    }
    void receive(double from, tezgumi::array<pinger> &all)
    {
        if (all.me() != 1) return all[static_cast<std::uint32_t>(from)].send(from);
        const std::uint64_t took = word(0) - since;
        if (left == pings || took < word(2)) word(2) = took;
        if (--left > 0) return ping(all);
        word(1) = 1;
        finish();
    }
};

// With one PE a ping is a letter to itself.
void pings()
{
    if (pes == 1) return;
    tests::clear_page();
    const auto end = launch::run<pinger>(usual(), 2 * pes, [](std::uint32_t) { return pinger(); });
    expect(at("a ping beside handlers of 5 ms takes " + std::to_string(word(2)) + " of them"), end.is_good() && word(2) < 30);
}

// ---- Rounds, on PEs whose handlers take 2 ms ----

struct marcher : tezgumi::chare {
    using messages = tezgumi::messages<int>;
    static constexpr std::uint32_t rounds = 4;
    std::uint64_t since = 0;
    bool is_over = false;
    void pup(pup::er &p) { p(since, is_over); }
    void resume(tezgumi::round r, tezgumi::array<marcher> &all)
    {
        work(0);
        if (all.me() == 0 && r > 0) {
            const std::uint64_t took = word(0) - since;
            if (r == 1 || took < word(1)) word(1) = took;
        }
        if (r == 0) all.self().send(0);
        is_over = r == rounds;
        if (is_over) return finish();
        since = word(0);
        at_sync();
    }
    // It goes on while its element waits for the round.
    void receive(int, tezgumi::array<marcher> &all)
    {
        work(1);
        tests::sleep(2);
        if (all.me() == 0) word(0)++;
        if (!is_over) all.self().send(0);
    }
};

void rounds()
{
    tests::clear_page();
    const auto end = launch::run<marcher>(usual(), pes, [](std::uint32_t) { return marcher(); });
    expect(at("a round beside handlers of 2 ms takes " + std::to_string(word(1)) + " of them"), end.is_good() && word(1) < 30);
}

// ---- What a handler sends leaves before the next one; and a long message comes while its sender runs a handler ----

struct neighbor : tezgumi::chare {
    using messages = tezgumi::messages<int, std::string>;
    static constexpr std::uint64_t enough = 200;
    int kind = 0;
    void pup(pup::er &p) { p(kind); }
    void resume(tezgumi::round, tezgumi::array<neighbor> &all)
    {
        if (all.me() == 0) {
            for (int i = 0; i < 3; i++) {
                if (i != 1 || kind == 1) all.self().send(i);
            }
        } else if (all.me() + 1 == all.size()) {
            if (kind == 1) all.self().send(3);
        } else {
            finish();
        }
    }
    void receive(int step, tezgumi::array<neighbor> &all)
    {
        tests::sleep(1);
        if (step == 0) all[all.size() - 1].send(std::string(kind == 0 ? 10 : 200000, 'n'));
        // The last one goes on, with its handlers, until it has the message.
        if (step == 3 && ++word(0) != 0 && word(1) == 0) all.self().send(3);
        if (step != 2) return;
        // By then it has come, or may be on its way, where its receiver still runs handlers.
        const std::uint64_t before = word(0);
        const bool is_in_time = tests::waits_for([&] { return kind == 0 ? word(1) != 0 : word(0) >= before + enough || word(1) != 0; });
        if (!is_in_time) word(2) = 1;
        finish();
    }
    void receive(const std::string &)
    {
        word(1) = 1;
        finish();
    }
};

void neighbors()
{
    for (int kind = 0; kind < 2 && pes > 1; kind++) {
        tests::clear_page();
        const auto end = launch::run<neighbor>(usual(), pes, [kind](std::uint32_t) {
            neighbor one;
            one.kind = kind;
            return one;
        });
        expect(at(kind == 0 ? "what a handler sends leaves before the next one" : "a long message does not stop its receiver"), end.is_good() && word(2) == 0);
    }
}

// ---- A PE that takes nothing, and others that send to it and to themselves ----

struct sender : tezgumi::chare {
    using messages = tezgumi::messages<int, std::string>;
    static constexpr int turns = 100;
    void pup(pup::er &) {}
    void resume(tezgumi::round, tezgumi::array<sender> &all)
    {
        if (all.me() < 2) return all.self().send(all.me() == 0 ? turns : 3 * turns);
        if (all.me() + 1 != all.size()) finish();
    }
    void receive(int left, tezgumi::array<sender> &all)
    {
        // The first goes on adding to what the last has to take. The second sends to itself alone.
        if (all.me() == 0) {
            word(0)++;
            all[all.size() - 1].send(std::string(100000, 's'));
        } else {
            tests::sleep(1);
        }
        if (left > 1) return all.self().send(left - 1);
        if (all.me() == 1) {
            word(1) = word(0).load();
            word(2) = 1;
        }
        finish();
    }
    void receive(const std::string &)
    {
        // The first one takes long: until the second element has done all.
        if (word(3)++ == 0 && !tests::waits_for([] { return word(2) != 0; })) word(4) = 1;
        if (word(3) == turns) finish();
    }
};

void slow_peers()
{
    if (pes == 1) return;
    tests::clear_page();
    tezgumi::settings how = usual();
    how.backlog = 1024 * 1024;
    const auto end = launch::run<sender>(how, 2 * pes, [](std::uint32_t) { return sender(); });
    const bool good = end.is_good() && end.letters.executed == 5u * sender::turns;
    expect(at("a PE beside a slow one runs its own letters"), good && word(4) == 0);
    expect(at("of " + std::to_string(sender::turns) + " handlers that add to a backlog ran " + std::to_string(word(1))), good && word(1) < 40);
}

// ---- What the program is told of, and what it throws ----

struct follower : tezgumi::chare {
    using messages = tezgumi::messages<int>;
    void pup(pup::er &) {}
    void resume(tezgumi::round r, tezgumi::array<follower> &)
    {
        work(1);
        if (r > 0) word(r)++;
        if (r == 3) return finish();
        at_sync();
    }
    void receive(int) {}
};

// A function that is told of a round waits until elements on another PE have gone on.
void told()
{
    tests::clear_page();
    tezgumi::settings how = usual();
    how.on_round = [](const tezgumi::round_report &of) {
        if (pes > 1 && !tests::waits_for([&] { return word(of.round) != 0; })) word(0) = 1;
    };
    const auto end = launch::run<follower>(how, 2 * pes, [](std::uint32_t) { return follower(); });
    expect(at("a round is decided before the program is told of it"), end.is_good() && word(0) == 0);
}

// A function of the program throws before each turn of the last PE.
void turns()
{
    tezgumi::settings how = usual();
    how.on_turn = [](std::uint32_t pe) {
        if (pe + 1 == pes) throw std::runtime_error("no turn");
    };
    const auto end = launch::run<follower>(how, 2 * pes, [](std::uint32_t) { return follower(); });
    expect(at("an exception before a turn"), end.met.kind == tezgumi::fault_kind::handler && end.met.what == "no turn" && end.met.pe == pes - 1);
}

// ---- A run in which nothing is left to do ----

struct waiter : tezgumi::chare {
    using messages = tezgumi::messages<int>;
    void pup(pup::er &) {}
    void resume(tezgumi::round, tezgumi::array<waiter> &all)
    {
        if (all.me() < 2) return finish();
        if (all.me() == 3) at_sync();
    }
    void receive(int) {}
};

void quiet()
{
    for (std::uint32_t n : {5u, 30u}) {
        const auto end = launch::run<waiter>(usual(), n, [](std::uint32_t) { return waiter(); });
        std::string text = std::to_string(n - 2) + " of " + std::to_string(n) + " elements have not finished: element 2 waits for a message, "
                           "element 3 waits for round 1, element 4 waits for a message";
        for (std::uint32_t i = 5; i < 10 && i < n; i++) text += ", element " + std::to_string(i) + " waits for a message";
        if (n > 10) text += ", and " + std::to_string(n - 10) + " more";
        text += "; no round is decided without an element that has finished";
        const bool good = end.met.kind == tezgumi::fault_kind::quiet && end.met.element == 2 && end.met.pe == std::uint64_t(2) * pes / n;
        expect(at("who waits for what, of " + std::to_string(n)), good && end.met.what == text);
    }
}

// Elements that finish while they wait take part in the round that they wait for, be it balanced or not. In the next one the run is quiet.
struct finisher : tezgumi::chare {
    using messages = tezgumi::messages<int>;
    tezgumi::round last = 0;
    void pup(pup::er &p) { p(last); }
    void resume(tezgumi::round r, tezgumi::array<finisher> &all)
    {
        last = r;
        if (all.me() == 1 && r == 0) return;
        at_sync();
        if (all.me() == 0 && r == 0) all.self().send(1);
    }
    void receive(int which, tezgumi::array<finisher> &all)
    {
        if (which == 1) {
            finish();
            all[1].send(2);
        } else {
            at_sync();
        }
    }
};

void finished()
{
    for (std::uint32_t every : {0u, 1u}) {
        tezgumi::settings how = usual();
        how.every = every;
        const auto end = launch::run<finisher>(how, 4, [](std::uint32_t) { return finisher(); });
        bool good = end.met.kind == tezgumi::fault_kind::quiet && end.met.element == 1 && end.letters.executed == 2;
        for (tezgumi::round last : end.collect([](const finisher &of) { return of.last; })) good = good && last == 1;
        good = good && end.met.what.find("3 of 4 elements have not finished: element 1 waits for round 2") == 0;
        expect(at(every == 0 ? "an element finishes while it waits, and nothing is balanced" : "an element finishes while it waits"), good);
    }
}

// ---- What is measured ----

struct worked : tezgumi::chare {
    using messages = tezgumi::messages<int>;
    bool names = false;
    void pup(pup::er &p) { p(names); }
    void resume(tezgumi::round, tezgumi::array<worked> &all)
    {
        if (names) work(1);
        all.self().send(100);
    }
    void receive(int left, tezgumi::array<worked> &all)
    {
        if (names) work(1);
        if (left == 0) return finish();
        all.self().send(left - 1);
    }
};

// How often the clock of a thread is read: twice for each handler that is measured by it, and for none that names its work but the first.
void clocks()
{
    for (int kind = 0; kind < 3; kind++) {
        tezgumi::settings how = usual();
        how.clock = kind == 0 ? tezgumi::settings().clock : tezgumi::clock_kind::cpu;
        readings = 0;
        const auto end = launch::run<worked>(how, 4 * pes, [kind](std::uint32_t) {
            worked one;
            one.names = kind == 1;
            return one;
        });
        const std::uint64_t here = launch::are_ranks ? 1 : pes, handlers = 102u * 4 * here, found = readings;
        const bool good = kind == 0 ? found == 0 : kind == 1 ? found <= 2 * here : found == 2 * handlers;
        const char *const names[] = {"the usual clock is read in user space", "no clock is read where work is named", "the clock of a thread"};
        expect(at(names[kind]), end.is_good() && good);
    }
}

// ---- Limits ----

// More rounds than elements may move in, which the program is told.
struct runner : tezgumi::chare {
    using messages = tezgumi::messages<int>;
    void pup(pup::er &) {}
    void resume(tezgumi::round r, tezgumi::array<runner> &)
    {
        work(1);
        if (r == tezgumi::detail::last_balanced_round + 1) return finish();
        at_sync();
    }
    void receive(int) {}
};

void long_runs()
{
    if (pes > 2) return;
    std::vector<tezgumi::round> past;
    tezgumi::settings how = usual();
    how.on_round = [&](const tezgumi::round_report &of) {
        if (of.past_limit && !of.balanced) past.push_back(of.round);
    };
    const auto end = launch::run<runner>(how, pes, [](std::uint32_t) { return runner(); });
    const tezgumi::round last = tezgumi::detail::last_balanced_round;
    // On all ranks the outcome says so, and the first is told of each such round.
    const bool are_told = !tests::prints() || past == std::vector<tezgumi::round>{last, last + 1};
    expect(at("rounds in which nothing moves any more are told of"), end.is_good() && end.past_limit && are_told);
    const auto few = launch::run<follower>(usual(), pes, [](std::uint32_t) { return follower(); });
    expect(at("a run with fewer rounds"), few.is_good() && !few.past_limit);
}

void settings()
{
    constexpr std::uint64_t one = 1;
    int refused = 0, taken = 0;
    for (int kind = 0; kind < 10; kind++) {
        tezgumi::settings how = usual();
        const bool is_past = kind % 2 == 0;
        if (kind / 2 == 0) how.batch = is_past ? 0 : 1;
        if (kind / 2 == 1) how.batch = (one << 30) + (is_past ? 1 : 0);
        if (kind / 2 == 2) how.window = is_past ? 0 : 1;
        if (kind / 2 == 3) how.window = (1u << 20) + (is_past ? 1 : 0);
        if (kind / 2 == 4) how.backlog = (one << 40) + (is_past ? 1 : 0);
        try {
            if (launch::run<follower>(how, 2 * pes, [](std::uint32_t) { return follower(); }).is_good()) taken++;
        } catch (const std::invalid_argument &) {
            refused++;
        }
    }
    expect(at("limits of batch, window and backlog"), refused == 5 && taken == 5);
}

void all()
{
    settings();
    quiet();
    finished();
    clocks();
    long_runs();
    neighbors();
    pings();
    rounds();
    slow_peers();
    told();
    turns();
}

} // namespace

int main(int argc, char **argv)
{
    launch::program program(argc, argv);
    tests::clear_page();
#ifdef WITH_MPI
    pes = program.pes(1);
    all();
#else
    for (std::uint32_t count : {1u, 2u, 5u}) {
        pes = count;
        all();
    }
#endif
    return tests::failed != 0;
}
