// Runs: messages, broadcasts, rounds and contributions, elements that move, long bodies, exceptions, and how runs end. On 1 to 8 PEs as
// threads, or on the ranks of MPI. With a word only those runs whose events are to be merged: they go to files of which this is the prefix.
#include "harness.hpp"

#include <atomic>
#include <numeric>
#include <set>

using tests::expect;

namespace {

std::uint32_t pes = 1; // of the runs that come

std::string prefix;     // of the files of events, if there are to be any

tezgumi::settings usual(const std::string &name = "")
{
    tezgumi::settings how;
    how.pes = pes;
    how.clock = tezgumi::clock_kind::none;
    if (!prefix.empty()) how.events = prefix + "." + name + "." + std::to_string(pes);
    return how;
}

std::string at(const std::string &name) { return name + ", " + std::to_string(pes) + " PEs"; }

// ---- A ring, and a broadcast ----

struct token {
    std::uint32_t left = 0;
    void pup(pup::er &p) { p(left); }
};
struct stop {
    std::string why;
    void pup(pup::er &p) { p(why); }
};

struct link : tezgumi::chare {
    using messages = tezgumi::messages<token, stop>;
    std::uint32_t seen = 0;
    std::string why;
    void pup(pup::er &p) { p(seen, why); }
    void resume(tezgumi::round r, tezgumi::array<link> &all)
    {
        if (r == 0 && all.me() == 0) all[1 % all.size()].send(token{300});
    }
    void receive(const token &one, tezgumi::array<link> &all)
    {
        seen++;
        if (one.left == 1) {
            all.send(stop{"done"});
        } else {
            all[(all.me() + 1) % all.size()].send(token{one.left - 1});
        }
    }
    void receive(stop &&one)
    {
        why = std::move(one.why);
        finish();
    }
};

void rings()
{
    for (std::uint32_t n : {1u, 2u, 7u, 40u}) {
        const auto end = launch::run<link>(usual(), n, [](std::uint32_t) { return link(); });
        const auto seen = end.collect([](const link &one) { return std::make_pair(one.seen, one.why); });
        bool good = end.is_good() && end.letters.posted == 300 + n && end.letters.executed == 300 + n && end.letters.held == 0;
        if (tests::prints()) {
            good = good && seen.size() == n;
            std::uint32_t all = 0;
            for (const auto &one : seen) all += one.first;
            for (const auto &one : seen) good = good && one.second == "done";
            good = good && all == 300;
        }
        expect(at("a ring of " + std::to_string(n)), good);
    }
}

// ---- Rounds: all elements contribute, and those with much work wander, so that elements move with their state ----

struct wanderer : tezgumi::chare {
    using messages = tezgumi::messages<std::vector<std::uint64_t>>;
    std::uint32_t rounds = 0, got = 0, sent = 0;
    std::vector<std::uint64_t> history;
    std::vector<std::int64_t> sums;
    std::vector<double> firsts;
    std::set<std::uint32_t> places;
    std::vector<std::uint32_t> visited;
    void pup(pup::er &p)
    {
        visited.assign(places.begin(), places.end());
        p(rounds, got, sent, history, sums, firsts, visited);
        places.clear();
        places.insert(visited.begin(), visited.end());
    }
    void resume(tezgumi::round r, tezgumi::array<wanderer> &all)
    {
        places.insert(all.pe());
        if (r > 0) {
            const std::vector<std::int64_t> results = all.results<std::int64_t>();
            sums.push_back(results.at(0) * 1000 + results.at(1));
        }
        work(0);
        if (r == rounds) return finish();
        // A letter to three elements, of which some are elsewhere soon.
        for (std::uint32_t k = 1; k <= 3; k++) all[(all.me() + k * 7 + r) % all.size()].send(std::vector<std::uint64_t>{r, all.me()});
        sent++;
        ready(all);
    }
    void receive(const std::vector<std::uint64_t> &of, tezgumi::array<wanderer> &all)
    {
        history.push_back(of.at(0) * 65536 + of.at(1));
        got++;
        work((all.me() + 5 * sent) % all.size() < 4 ? 1000 : 10);
        ready(all);
    }
    void ready(tezgumi::array<wanderer> &all)
    {
        if (got < 3 * sent) return;
        const auto me = static_cast<std::int64_t>(all.me());
        contribute(tezgumi::sum(std::vector<std::int64_t>{me + sent, 1}));
        at_sync();
    }
};

void rounds()
{
    const std::uint32_t n = 30;
    constexpr std::uint32_t rounds = 12;
    for (int kind = 0; kind < 4; kind++) {
        tezgumi::settings how = usual("rounds" + std::to_string(kind));
        how.every = kind == 1 ? 0 : kind == 2 ? 3 : 1;
        how.within = kind == 3;
        how.tolerance = how.within ? 200 : 0;
        const auto end = launch::run<wanderer>(how, n, [](std::uint32_t) {
            wanderer one;
            one.rounds = rounds;
            return one;
        });
        bool good = end.is_good() && end.letters.posted == 3u * n * rounds && end.letters.executed == end.letters.posted;
        std::uint64_t most = 0;
        auto all = end.collect([](const wanderer &one) { return std::make_tuple(one.history, one.sums, one.visited.size(), one.places.size()); });
        if (tests::prints()) {
            good = good && all.size() == n && end.rounds.size() == rounds;
            for (std::uint32_t i = 0; good && i < n; i++) {
                auto &[history, sums, visited, places] = all[i];
                (void)visited;
                std::sort(history.begin(), history.end());
                std::vector<std::uint64_t> expected;
                for (std::uint32_t r = 0; r < rounds; r++) {
                    for (std::uint32_t k = 1; k <= 3; k++) expected.push_back(std::uint64_t(r) * 65536 + (i + 10 * n - k * 7 - r) % n);
                }
                std::sort(expected.begin(), expected.end());
                good = history == expected && sums.size() == rounds;
                for (std::uint32_t r = 0; good && r < rounds; r++) good = sums[r] == (n * (n - 1) / 2 + n * (r + 1)) * 1000 + n;
                most = std::max<std::uint64_t>(most, places);
            }
            for (const auto &one : end.rounds) good = good && one.bottleneck <= one.greatest && one.greatest <= one.total;
            if (pes > 1 && kind == 0) good = good && most > 1;
            if (kind == 1) good = good && most == 1;
        }
        const char *const names[] = {"rounds", "rounds that are not balanced", "rounds balanced each three", "rounds within a tolerance"};
        expect(at(names[kind]), good);
    }
}

// ---- What moves is weighed: elements that are at sync as they are resumed, of different sizes ----

struct weight : tezgumi::chare {
    using messages = tezgumi::messages<int>;
    static constexpr std::uint32_t rounds = 6;
    std::array<std::uint32_t, rounds + 1> places{};
    std::vector<std::uint8_t> ballast;
    void pup(pup::er &p) { p(places, ballast); }
    void resume(tezgumi::round r, tezgumi::array<weight> &all)
    {
        places[r] = all.pe();
        ballast.resize(10 * all.me());
        work((all.me() + 4 * r) % all.size() < 4 ? 100 : 3);
        if (r == rounds) return finish();
        at_sync();
    }
    void receive(int) {}
};

void weights()
{
    const auto end = launch::run<weight>(usual(), 20, [](std::uint32_t) { return weight(); });
    bool good = end.is_good();
    const auto places = end.collect([](const weight &one) { return one.places; });
    for (std::uint32_t r = 0; tests::prints() && r < weight::rounds; r++) {
        std::uint64_t moved = 0;
        for (std::uint32_t i = 0; i < 20; i++) {
            if (places[i][r] != places[i][r + 1]) moved += 4 * (weight::rounds + 1) + 4 + 10 * i;
        }
        good = good && end.rounds.at(r).moved == moved;
    }
    expect(at("the bytes that move"), good);
}

// ---- Contributions of doubles: the same bits on any number of PEs ----

struct giver : tezgumi::chare {
    using messages = tezgumi::messages<int>;
    double own = 0, sum = 0, least = 0, greatest = 0;
    void pup(pup::er &p) { p(own, sum, least, greatest); }
    void resume(tezgumi::round r, tezgumi::array<giver> &all)
    {
        if (r == 0) own = 1.0 / (3 + all.me());
        if (r == 1) sum = all.result<double>();
        if (r == 2) least = all.result<double>();
        if (r == 3) greatest = all.result<double>();
        if (r == 4) return finish();
        if (r == 0) contribute(tezgumi::sum(own));
        if (r == 1) contribute(tezgumi::least(own));
        if (r == 2) contribute(tezgumi::greatest(own));
        at_sync();
    }
    void receive(int) {}
};

void contributions()
{
    const auto end = launch::run<giver>(usual(), 100, [](std::uint32_t) { return giver(); });
    double sum = 0;
    for (int i = 0; i < 100; i++) sum = i == 0 ? 1.0 / 3 : sum + 1.0 / (3 + i);
    bool good = end.is_good();
    for (const auto &one : end.collect([](const giver &of) { return std::make_tuple(of.sum, of.least, of.greatest); })) {
        good = good && one == std::make_tuple(sum, 1.0 / 102, 1.0 / 3);
    }
    expect(at("contributions of doubles"), good);
}

// ---- Long bodies, which go beside their letters, also while elements move ----

struct carrier : tezgumi::chare {
    using messages = tezgumi::messages<std::vector<std::uint32_t>, std::string>;
    std::uint32_t got = 0, sent = 0;
    std::uint64_t sum = 0;
    std::vector<double> ballast;
    void pup(pup::er &p) { p(got, sent, sum, ballast); }
    void resume(tezgumi::round r, tezgumi::array<carrier> &all)
    {
        work(0);
        if (r == 6) return finish();
        ballast.resize(1000 * (1 + all.me() % 5), all.me());
        for (std::uint32_t k = 0; k < 4; k++) {
            // Around the length at which a body goes beside, and far above it.
            const std::uint32_t count = k == 3 ? 50000 : 252 + k;
            all[(all.me() * 5 + k + r) % all.size()].send(std::vector<std::uint32_t>(count, r));
        }
        if (all.me() == r) all.send(std::string(5000, 'x'));
        sent++;
        ready();
    }
    void receive(std::vector<std::uint32_t> &&body, tezgumi::array<carrier> &all)
    {
        sum += body.size() + body.at(0);
        count(all);
    }
    void receive(const std::string &text, tezgumi::array<carrier> &all)
    {
        sum += text.size();
        count(all);
    }
    void count(tezgumi::array<carrier> &all)
    {
        got++;
        work((all.me() * 13 + sent) % all.size() < 3 ? 100 : 1);
        ready();
    }
    // What is of the next round may come before this one is over.
    void ready()
    {
        if (got >= 5 * sent) at_sync();
    }
};

void long_bodies()
{
    const std::uint32_t n = 11;
    const auto end = launch::run<carrier>(usual("bodies"), n, [](std::uint32_t) { return carrier(); });
    std::uint64_t sum = 0;
    for (std::uint64_t one : end.collect([](const carrier &of) { return of.sum; })) sum += one;
    // In each round each element sends 252, 253, 254 and 50000 numbers, and one sends 5000 bytes to all.
    std::uint64_t expected = 0;
    for (std::uint32_t r = 0; r < 6; r++) expected += n * (252 + 253 + 254 + 50000 + 4 * r) + n * 5000;
    expect(at("long bodies"), end.is_good() && end.letters.executed == 6u * n * 5 && (!tests::prints() || sum == expected));
}

// ---- Exceptions ----

struct thrower : tezgumi::chare {
    using messages = tezgumi::messages<int>;
    int how = 0, state = 0;
    void pup(pup::er &p) { p(how, state); }
    void resume(tezgumi::round, tezgumi::array<thrower> &all)
    {
        if (all.me() == 0) all[all.size() - 1].send(1);
    }
    void receive(int, tezgumi::array<thrower> &all)
    {
        state = 5;
        if (how == 0) throw std::runtime_error("of the test");
        if (how == 1) all[all.size()].send(1);
        if (how == 2) throw std::bad_alloc();
        if (how == 3) throw 7;
        if (how == 4) throw std::invalid_argument(std::string(1000, 'y'));
    }
};

// The same, but its elements are restored.
struct restorer : tezgumi::chare {
    static constexpr bool restores = true;
    using messages = tezgumi::messages<int>;
    std::vector<int> state;
    void pup(pup::er &p) { p(state); }
    void resume(tezgumi::round, tezgumi::array<restorer> &all)
    {
        if (all.me() != 0) return;
        for (int i = 0; i < 10; i++) all.send(i);
    }
    void receive(int i, tezgumi::array<restorer> &all)
    {
        state.push_back(i);
        if (i % 3 == 1) {
            all.self().send(100);
            at_sync();
            throw std::runtime_error("of the test");
        }
        if (state.size() == 7) finish();
    }
};

void exceptions()
{
    const char *const words[] = {"handler", "stranger", "memory", "handler", "handler"};
    const std::string texts[] = {"of the test", "there is no element 9 in an array of 9", "memory was refused", "an exception of a type that is not known", std::string(1000, 'y')};
    for (int kind = 0; kind < 5; kind++) {
        const auto end = launch::run<thrower>(usual(), 9, [kind](std::uint32_t) {
            thrower one;
            one.how = kind;
            return one;
        });
        const bool good = !end.is_good() && end.met.word() == std::string(words[kind]) && end.met.element == 8 && end.met.pe == std::uint64_t(8) * pes / 9 &&
            texts[kind].compare(0, 499, end.met.what, 0, 499) == 0 && end.letters.posted == 1 && end.letters.executed == 0 && end.letters.held == 1;
        expect(at("an exception of kind " + std::to_string(kind)), good);
    }
    const auto made = launch::run<thrower>(usual(), 9, [](std::uint32_t i) {
        if (i == 4) throw std::runtime_error("no element");
        return thrower();
    });
    bool missing = made.elements.count(4) == 0;
    for (int one : made.collect([](const thrower &of) { return of.how; })) missing = missing && one == 0;
    expect(at("an element that is not made"), missing && made.met.kind == tezgumi::fault_kind::handler && made.met.element == 4 && made.met.what == "no element");
}

void restored()
{
    const auto end = launch::run<restorer>(usual("restored"), 5, [](std::uint32_t) { return restorer(); });
    bool good = end.is_good() && end.letters.failed == 15 && end.letters.posted == 50 && end.letters.executed == 50;
    for (auto state : end.collect([](const restorer &one) { return one.state; })) {
        std::sort(state.begin(), state.end());
        good = good && state == std::vector<int>{0, 2, 3, 5, 6, 8, 9};
    }
    expect(at("elements that are restored"), good);
}

// Elements that move, of which one throws as it is packed, or unpacked.
struct brittle : tezgumi::chare {
    using messages = tezgumi::messages<int>;
    std::uint8_t kind = 0;
    std::uint32_t index = 0;
    std::vector<std::uint8_t> ballast;
    void pup(pup::er &p)
    {
        p(kind, index);
        if (p.is_packing() && kind == 1) throw std::runtime_error("packed");
        if (p.is_unpacking() && kind == 2) throw std::runtime_error("unpacked");
        p(ballast);
    }
    void resume(tezgumi::round r, tezgumi::array<brittle> &all)
    {
        work(all.me() == 0 ? 1000 : 1);
        if (r == 1) return finish();
        at_sync();
    }
    void receive(int) {}
};

// The last element moves where there are more PEs than one, since the first has most of the work.
void brittle_ones()
{
    for (std::uint8_t kind = 0; kind < 3; kind++) {
        const std::uint32_t n = 6;
        const auto end = launch::run<brittle>(usual(), n, [kind](std::uint32_t i) {
            brittle one;
            one.index = i;
            one.ballast.assign(3000000, static_cast<std::uint8_t>(i));
            if (i == 2) one.kind = kind;
            return one;
        });
        // Element 2 begins on the PE of the first one, with 2 and 3 PEs; on others it may stay.
        const bool moves = pes == 2;
        const auto there = end.collect([](const brittle &one) { return std::make_tuple(one.index, one.ballast.size()); });
        bool good = true;
        for (const auto &one : there) good = good && (std::get<1>(one) == 3000000 || !end.is_good());
        if (kind == 0) good = good && end.is_good() && (!tests::prints() || there.size() == n);
        if (kind != 0 && moves) {
            good = good && end.met.kind == tezgumi::fault_kind::handler && end.met.element == 2 && end.met.what == (kind == 1 ? "packed" : "unpacked");
            // Where it was not packed it is still there.
            if (tests::prints() && kind == 1) good = good && there.size() == n;
        }
        const char *const names[] = {"large elements", "an element that is not packed", "an element that is not unpacked"};
        expect(at(names[kind]), good);
    }
}

// What the program is told, and throws.
struct waiter : tezgumi::chare {
    using messages = tezgumi::messages<int>;
    int kind = 0;
    void pup(pup::er &p) { p(kind); }
    void resume(tezgumi::round r, tezgumi::array<waiter> &all)
    {
        if (r == 0 && kind == 1) contribute(tezgumi::sum(2000000000));
        if (r == 0) return at_sync();
        if (kind == 1 && all.result<std::int64_t>() == 6000000000 && all.result<int>() != 0) work(1);
        finish();
    }
    void receive(int) {}
};

void told()
{
    tezgumi::settings how = usual();
    how.on_round = [](const tezgumi::round_report &) { throw 7; };
    const auto end = launch::run<waiter>(how, 3, [](std::uint32_t) { return waiter(); });
    expect(at("an exception of what is told of a round"), end.met.kind == tezgumi::fault_kind::handler);
    const auto sum = launch::run<waiter>(usual(), 3, [](std::uint32_t) {
        waiter one;
        one.kind = 1;
        return one;
    });
    expect(at("a sum past its type"), sum.met.kind == tezgumi::fault_kind::handler && sum.met.what == "a contribution is past the type that is asked for");
#ifdef WITH_MPI
    int rank = 0, refused = 0;
    MPI_Comm_rank(MPI_COMM_WORLD, &rank);
    try {
        launch::run<waiter>(usual(), rank == 0 ? 3 : 4, [](std::uint32_t) { return waiter(); });
    } catch (const std::invalid_argument &) {
        refused = 1;
    }
    expect(at("ranks that name different numbers"), refused == (pes > 1));
    try {
        launch::run<waiter>(usual(), rank == 0 ? 70000 : 4, [](std::uint32_t) { return waiter(); });
    } catch (const std::invalid_argument &) {
        refused = 2;
    }
    expect(at("a number past its limit on one rank"), refused == 2);
    // A message that the program waits for meanwhile gets nothing of a run.
    int number = 0, is_there = 0;
    MPI_Request request;
    MPI_Irecv(&number, 1, MPI_INT, MPI_ANY_SOURCE, MPI_ANY_TAG, MPI_COMM_WORLD, &request);
    tezgumi::settings stays = usual();
    stays.every = 0;
    const auto more = launch::run<waiter>(stays, 2 * pes, [](std::uint32_t) { return waiter(); });
    const std::size_t found = more.collect([](const waiter &of) { return of.kind; }).size();
    int thrown = 0;
    try {
        more.collect([rank](const waiter &) { return rank + 1 == static_cast<int>(pes) ? throw std::logic_error("no") : 1; });
    } catch (const std::exception &) {
        thrown = 1;
    }
    MPI_Test(&request, &is_there, MPI_STATUS_IGNORE);
    expect(at("a message of the program"), !is_there && (rank != 0 || found == 2 * pes) && thrown == 1);
    if (!is_there) {
        MPI_Cancel(&request);
        MPI_Wait(&request, MPI_STATUS_IGNORE);
    }
#endif
}

// ---- How runs end ----

struct idler : tezgumi::chare {
    using messages = tezgumi::messages<int>;
    std::uint32_t got = 0;
    bool ends = false;
    void pup(pup::er &p) { p(got, ends); }
    void resume(tezgumi::round r, tezgumi::array<idler> &all)
    {
        if (ends) finish();
        if (r == 0 && all.me() == 0) all[all.size() / 2].send(3);
        if (all.me() == all.size() - 1) at_sync();
    }
    void receive(int left, tezgumi::array<idler> &all)
    {
        got++;
        if (left) all[(all.me() + 3) % all.size()].send(left - 1);
    }
};

void ends()
{
    auto quiet = launch::run<idler>(usual(), 10, [](std::uint32_t) { return idler(); });
    expect(at("nothing is left to do"), quiet.met.kind == tezgumi::fault_kind::quiet && quiet.letters.posted == 4 && quiet.letters.executed == 4);
    auto none = launch::run<idler>(usual(), 0, [](std::uint32_t) { return idler(); });
    expect(at("no element"), none.is_good() && none.letters.posted == 0);
    // All finish at once, and letters are left.
    auto left = launch::run<idler>(usual(), 10, [](std::uint32_t) {
        idler one;
        one.ends = true;
        return one;
    });
    expect(at("letters are left"), left.is_good() && left.letters.posted == left.letters.executed + left.letters.held);
    int refused = 0;
    for (int kind = 0; kind < 2; kind++) {
        tezgumi::settings how = usual();
        how.within = kind == 1;
        how.tolerance = 1001;
        try {
            launch::run<idler>(how, kind == 0 ? 65537 : 1, [](std::uint32_t) { return idler(); });
        } catch (const std::invalid_argument &) {
            refused++;
        }
    }
    expect(at("numbers past their limits"), refused == 2);
}

// ---- Floods: many send to one, and all to all, with little room ----

struct flooder : tezgumi::chare {
    using messages = tezgumi::messages<std::string, std::uint32_t>;
    std::uint32_t got = 0, turns = 0, kind = 0;
    void pup(pup::er &p) { p(got, turns, kind); }
    void resume(tezgumi::round, tezgumi::array<flooder> &all)
    {
        if (kind == 1 || all.me() > 0) all.self().send(turns);
        else if (all.size() == 1) finish();
    }
    // A turn of its own: a letter with ballast to the first element, or to all.
    void receive(std::uint32_t left, tezgumi::array<flooder> &all)
    {
        if (left == 0) return;
        if (kind == 0) all[0].send(std::string(700, 'f'));
        else all.send(std::string(200, 'f'));
        if (left > 1) all.self().send(left - 1);
        else if (kind == 0) finish();
    }
    void receive(const std::string &, tezgumi::array<flooder> &all)
    {
        got++;
        if (kind == 0 && got == turns * (all.size() - 1)) finish();
        if (kind == 1 && got == turns * all.size()) finish();
    }
};

void floods()
{
    for (std::uint32_t kind = 0; kind < 2; kind++) {
        tezgumi::settings how = usual();
        how.batch = 2000;
        how.window = 2;
        how.backlog = 8000;
        const std::uint32_t n = 10, turns = kind == 0 ? 1000 : 60;
        const auto end = launch::run<flooder>(how, n, [=](std::uint32_t) {
            flooder one;
            one.kind = kind;
            one.turns = turns;
            return one;
        });
        const std::uint64_t letters = kind == 0 ? 2ull * turns * (n - 1) : n * (turns + std::uint64_t(turns) * n);
        expect(at(kind == 0 ? "a flood to one" : "a flood of all"), end.is_good() && end.letters.posted == letters && end.letters.executed == letters);
    }
}

// ---- Loads by the clock ----

struct burner : tezgumi::chare {
    using messages = tezgumi::messages<int>;
    double heat = 1;
    void pup(pup::er &p) { p(heat); }
    void resume(tezgumi::round r, tezgumi::array<burner> &all)
    {
        if (r == 2) return finish();
        if (all.me() < 3) {
            for (int i = 0; i < 400000; i++) heat = heat * 1.0000001 + 1e-9;
        }
        at_sync();
    }
    void receive(int) {}
};

void clocks()
{
    for (tezgumi::clock_kind clock : {tezgumi::clock_kind::cpu, tezgumi::clock_kind::wall}) {
        tezgumi::settings how = usual();
        how.clock = clock;
        std::atomic<int> rounds{0};
        how.on_round = [&rounds](const tezgumi::round_report &of) { rounds += of.total > 100000 ? 1 : 0; };
        const auto end = launch::run<burner>(how, 12, [](std::uint32_t) { return burner(); });
        expect(at(clock == tezgumi::clock_kind::cpu ? "loads in processor time" : "loads in time"), end.is_good() && (!tests::prints() || rounds == 2));
    }
}

void all()
{
    rounds();
    long_bodies();
    restored();
    if (!prefix.empty()) return;
    rings();
    weights();
    contributions();
    exceptions();
    brittle_ones();
    told();
    ends();
    floods();
    clocks();
}

} // namespace

int main(int argc, char **argv)
{
    launch::program program(argc, argv);
    if (argc > 1) prefix = argv[1];
#ifdef WITH_MPI
    pes = program.pes(1);
    all();
#else
    for (std::uint32_t count : {1u, 2u, 3u, 5u, 8u}) {
        pes = count;
        all();
    }
#endif
    return tests::failed != 0;
}
