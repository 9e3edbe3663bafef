// What a handler is called for, what it contributes, what it may send to, and what becomes of it where it throws. On 1 to 8 PEs as threads,
// or on the ranks of MPI.
#include "harness.hpp"

#include <mutex>
#include <set>

using tests::expect;

namespace {

std::uint32_t pes = 1; // of the runs that come

tezgumi::settings usual()
{
    tezgumi::settings how;
    how.pes = pes;
    how.clock = tezgumi::clock_kind::none;
    return how;
}

std::string at(const std::string &name) { return name + ", " + std::to_string(pes) + " PEs"; }

// Runs n elements as make(i) returns them.
template <class C> launch::outcome<C> run_all(const tezgumi::settings &how, std::uint32_t n, int kind = 0)
{
    return launch::run<C>(how, n, [kind](std::uint32_t) {
        C one;
        one.kind = kind;
        return one;
    });
}

// ---- Each letter comes to the handler of its own type, in whichever form that is ----

struct event {
    int number = 0;
    void pup(pup::er &p) { p(number); }
};
struct large_event : event {
    int more = 0;
    void pup(pup::er &p) { p(number, more); }
};
struct moved_event {
    std::string text;
    void pup(pup::er &p) { p(text); }
};

struct sorter : tezgumi::chare {
    using messages = tezgumi::messages<int, double, float, event, large_event, std::string, moved_event, std::vector<int>>;
    int kind = 0, got = 0;
    std::string log;
    void pup(pup::er &p) { p(kind, got, log); }
    void resume(const tezgumi::round, tezgumi::array<sorter> &all)
    {
        if (all.me() != 0) return;
        all.send(7);
        all.send(2.75);
        all.send(1.5f);
        all.send(event{3});
        large_event large;
        large.number = 4;
        large.more = 5;
        all.send(large);
        all.send(std::string("text"));
        all.send(moved_event{"moved"});
        all.send(std::vector<int>{1, 2, 3});
    }
    void receive(int x) { note("int " + std::to_string(x)); }
    void receive(double x, tezgumi::array<sorter> &) { note("double " + std::to_string(int(100 * x))); }
    void receive(float x, tezgumi::array<sorter> &) { note("float " + std::to_string(int(100 * x))); }
    void receive(const event &e) { note("event " + std::to_string(e.number)); }
    void receive(const large_event &e, tezgumi::array<sorter> &) { note("large " + std::to_string(e.number + 10 * e.more)); }
    void receive(std::string text) { note("string " + text); }
    void receive(const moved_event &) { note("not moved"); }
    void receive(moved_event &&e) { note("moved " + e.text); }
    void receive(const std::vector<int> &of, tezgumi::array<sorter> &) { note("list " + std::to_string(of.size())); }
    void note(const std::string &what)
    {
        std::string all;
        std::set<std::string> lines;
        for (std::size_t from = 0, to; (to = log.find('\n', from)) != std::string::npos; from = to + 1) lines.insert(log.substr(from, to - from));
        lines.insert(what);
        for (const std::string &one : lines) all += one + "\n";
        log = all;
        if (++got == 8) finish();
    }
};

void types()
{
    const auto end = run_all<sorter>(usual(), 5);
    bool good = end.is_good();
    for (const std::string &log : end.collect([](const sorter &of) { return of.log; })) {
        good = good && log == "double 275\nevent 3\nfloat 150\nint 7\nlarge 54\nlist 3\nmoved moved\nstring text\n";
    }
    expect(at("each message comes to the handler of its type"), good);
}

// ---- Contributions: they are kept until the element is at sync, and several of a round stay in order ----

// In each round all elements contribute the first value as the letters of the round come, and the others at sync.
struct keeper : tezgumi::chare {
    using messages = tezgumi::messages<int, char>;
    static constexpr int rounds = 4;
    int kind = 0, got = 0;
    std::vector<std::int64_t> sums;
    std::vector<double> greatest;
    void pup(pup::er &p) { p(kind, got, sums, greatest); }
    void resume(tezgumi::round r, tezgumi::array<keeper> &all)
    {
        work((all.me() + 3 * r) % all.size() < 2 ? 100 : 1);
        if (r > 0) {
            sums.push_back(all.result<std::int64_t>());
            greatest.push_back(all.result<double>(1));
            if (!all.has_result() || !all.has_result(1) || all.has_result(2)) throw std::logic_error("another number of results");
        }
        if (r == rounds) return finish();
        all.self().send(int(r));
    }
    void receive(int r, tezgumi::array<keeper> &all)
    {
        contribute(tezgumi::sum(1));
        all.self().send(char(r));
    }
    void receive(char r, tezgumi::array<keeper> &all)
    {
        contribute(tezgumi::greatest(0.5 * all.me() + r));
        at_sync();
    }
};

// What an element says while it waits: with at_sync it is passed over, and alone it counts for the next round, also where the element moves
// before that. The first element is at sync once the others have got their letters.
struct early : tezgumi::chare {
    using messages = tezgumi::messages<int, char>;
    int kind = 0;
    std::uint32_t got = 0;
    std::vector<int> sums;
    void pup(pup::er &p) { p(kind, got, sums); }
    void resume(tezgumi::round r, tezgumi::array<early> &all)
    {
        work(all.me() == 0 && r == 0 ? 1000 : 1);
        if (r > 0) sums.push_back(all.result<int>());
        if (r == 2) return finish();
        if (r == 1) {
            if (all.me() == 0) contribute(tezgumi::sum(10));
            return at_sync();
        }
        if (all.me() == 0) return;
        contribute(tezgumi::sum(1));
        at_sync();
        all.self().send(1);
        all.self().send(char(2));
    }
    void receive(int which, tezgumi::array<early> &all)
    {
        if (which == 1) {
            contribute(tezgumi::sum(1000));
            at_sync();
            all[0].send(2);
        } else if (++got == 2 * (all.size() - 1)) {
            contribute(tezgumi::sum(1));
            at_sync();
        }
    }
    void receive(char, tezgumi::array<early> &all)
    {
        contribute(tezgumi::sum(10));
        all[0].send(2);
    }
};

// Elements that contribute, and others that do not.
struct uneven : tezgumi::chare {
    using messages = tezgumi::messages<int>;
    int kind = 0;
    void pup(pup::er &p) { p(kind); }
    void resume(tezgumi::round r, tezgumi::array<uneven> &all)
    {
        if (r == 1) return finish();
        if (kind == 0 && all.me() != 2) contribute(tezgumi::sum(1));
        if (kind == 1 && all.me() == 3) contribute(tezgumi::sum(1));
        if (kind == 2) contribute(tezgumi::sum(1));
        if (kind == 2 && all.me() != 1) contribute(tezgumi::sum(1));
        if (kind == 3) contribute(all.me() == 2 ? tezgumi::greatest(1) : tezgumi::sum(1));
        at_sync();
    }
    void receive(int) {}
};

void contributions()
{
    const std::uint32_t n = 6;
    const auto end = run_all<keeper>(usual(), n);
    bool good = end.is_good();
    for (const auto &one : end.collect([](const keeper &of) { return std::make_pair(of.sums, of.greatest); })) {
        good = good && one.first == std::vector<std::int64_t>(keeper::rounds, n) && one.second == std::vector<double>{2.5, 3.5, 4.5, 5.5};
    }
    expect(at("a contribution is kept until its element is at sync, and two stay in order"), good);
    const std::string texts[] = {"element 0 contributes a value to round 1, and element 2 contributes nothing",
        "element 0 contributes nothing to round 1, and element 3 contributes a value", "element 0 contributes 2 values to round 1, and element 1 contributes a value",
        "contributions of one sync differ in kind or in length"};
    for (int kind = 0; kind < 4; kind++) {
        const auto found = run_all<uneven>(usual(), 5, kind).met;
        expect(at("contributions of some elements, of kind " + std::to_string(kind)), found.kind == tezgumi::fault_kind::input && found.what == texts[kind]);
    }
}

void early_contributions()
{
    const auto end = run_all<early>(usual(), 8);
    bool good = end.is_good();
    for (const auto &sums : end.collect([](const early &of) { return of.sums; })) good = good && sums == std::vector<int>{8, 80};
    expect(at("what is contributed while an element waits"), good);
}

// Numbers of each type.
struct counter : tezgumi::chare {
    using messages = tezgumi::messages<int>;
    int kind = 0;
    bool is_right = false;
    void pup(pup::er &p) { p(kind, is_right); }
    void resume(tezgumi::round r, tezgumi::array<counter> &all)
    {
        if (r == 1) {
            is_right = all.result<long long>() == 3000000000 && all.result<float>(1) == 4.5f && all.result<short>(2) == -2 && all.result<unsigned char>(3) == 2 &&
                all.result<unsigned long long>(4) == 7 && all.result<int>(5) == 3 && all.results<long>(6) == std::vector<long>{3, 6};
            return finish();
        }
        contribute(tezgumi::sum(1000000000LL));
        contribute(tezgumi::sum(1.5f));
        contribute(tezgumi::least(static_cast<short>(-all.me())));
        contribute(tezgumi::greatest(static_cast<unsigned char>(all.me())));
        contribute(tezgumi::greatest(7ull));
        contribute(tezgumi::sum(1));
        contribute(tezgumi::sum(std::vector<long>{1, 2}));
        at_sync();
    }
    void receive(int) {}
};

void numbers()
{
    const auto end = run_all<counter>(usual(), 3);
    bool good = end.is_good();
    for (bool one : end.collect([](const counter &of) { return of.is_right; })) good = good && one;
    expect(at("contributions of all types of numbers"), good);
}

// ---- Elements that are not there ----

struct pointer : tezgumi::chare {
    using messages = tezgumi::messages<int>;
    int kind = 0;
    void pup(pup::er &p) { p(kind); }
    void resume(tezgumi::round, tezgumi::array<pointer> &all)
    {
        if (all.me() != 0) return finish();
        const std::uint64_t far = (std::uint64_t(1) << 32) + 1;
        const int before = -1;
        const char first = 0;
        all[first].send(1);
        all[std::size_t(0)].send(1);
        if (kind == 0) all[far].send(1);
        if (kind == 1) all[before].send(1);
        if (kind == 2) all[3].send(1);
    }
    void receive(int) {}
};

void strangers()
{
    const std::string texts[] = {"there is no element 4294967297 in an array of 3", "there is no element -1 in an array of 3", "there is no element 3 in an array of 3"};
    for (int kind = 0; kind < 3; kind++) {
        const auto end = run_all<pointer>(usual(), 3, kind);
        expect(at("an index that is none, of kind " + std::to_string(kind)),
            end.met.kind == tezgumi::fault_kind::stranger && end.met.element == 0 && end.met.what == texts[kind] && end.letters.posted == 0);
    }
}

// ---- Messages to some elements ----

// To each as often as its index is in the list: short and long ones, and such as wait until nothing else is to be done. Where one of them is no
// element none gets the message.
struct caller : tezgumi::chare {
    using messages = tezgumi::messages<int, std::string, char>;
    int kind = 0, numbers = 0;
    std::size_t bytes = 0;
    std::string late;
    void pup(pup::er &p) { p(kind, numbers, bytes, late); }
    void resume(tezgumi::round, tezgumi::array<caller> &all)
    {
        if (all.me() != 1) return;
        all.send(1, std::vector<int>{0, 3, 3, 6});
        all.send(10, std::vector<std::uint64_t>());
        all.send(std::string(3000, 'l'), std::vector<std::uint32_t>{6, 0, 6, 2});
        for (std::int64_t none : {std::int64_t(-1), std::int64_t(7), std::int64_t(1) << 32}) {
            try {
                all.send(100, std::vector<std::int64_t>{0, none, 3});
                numbers = -1000;
            } catch (const tezgumi::stranger &) {
            }
        }
        all.when_quiet('e', std::vector<int>{0, 1, 2, 3, 4, 5, 6});
    }
    void receive(int number) { numbers += number; }
    void receive(const std::string &text) { bytes += text.size(); }
    void receive(char)
    {
        late = std::to_string(numbers) + " " + std::to_string(bytes);
        finish();
    }
};

void some()
{
    const auto end = run_all<caller>(usual(), 7);
    const auto found = end.collect([](const caller &of) { return of.late; });
    const std::vector<std::string> expected = {"1 3000", "0 0", "0 3000", "2 0", "0 0", "0 0", "1 6000"};
    expect(at("messages to some elements"), end.is_good() && end.letters.posted == 15 && end.letters.executed == 15 && (!tests::prints() || found == expected));
}

// ---- Elements that are restored ----

struct restorer : tezgumi::chare {
    static constexpr bool restores = true;
    using messages = tezgumi::messages<int>;
    int kind = 0, got = 0;
    std::int64_t sum = 0;
    void pup(pup::er &p) { p(kind, got, sum); }
    void resume(tezgumi::round r, tezgumi::array<restorer> &all)
    {
        if (r == 1) {
            sum = all.result<std::int64_t>();
            return finish();
        }
        for (int i = 0; i < 4; i++) all.self().send(i);
    }
    void receive(int i, tezgumi::array<restorer> &all)
    {
        // What the handlers before have contributed stays, and what this one does is gone where it throws.
        contribute(tezgumi::sum(1));
        if (i == 1) throw std::runtime_error("of the test");
        if (i == 2) all[all.size()].send(1);
        if (i == 3 && kind == 1 && all.me() == 2) throw std::bad_alloc();
        got++;
        if (got == 2) at_sync();
    }
};

void restored()
{
    std::mutex lock;
    std::multiset<std::pair<std::uint32_t, std::string>> told;
    tezgumi::settings how = usual();
    how.every = 0; // so that each element is where its handlers ran
    how.on_failed = [&](std::uint32_t element, const std::string &what) {
        const std::lock_guard<std::mutex> guard(lock);
        told.emplace(element, what);
    };
    const auto end = run_all<restorer>(how, 4);
    bool good = end.is_good() && end.letters.failed == 8;
    std::multiset<std::pair<std::uint32_t, std::string>> expected;
    for (const auto &one : end.elements) {
        expected.emplace(one.first, "of the test");
        expected.emplace(one.first, "there is no element 4 in an array of 4");
        good = good && one.second->got == 2 && one.second->sum == 4;
    }
    expect(at("the exceptions of elements that are restored are told"), good && told == expected);
    const auto lacking = run_all<restorer>(usual(), 4, 1);
    expect(at("want of memory is a fault, also where elements are restored"), lacking.met.kind == tezgumi::fault_kind::memory && lacking.met.element == 2);
    tezgumi::settings throws = usual();
    throws.on_failed = [](std::uint32_t, const std::string &) { throw std::runtime_error("of what is told"); };
    const auto third = run_all<restorer>(throws, 4);
    expect(at("what is told of a failure throws"), third.met.kind == tezgumi::fault_kind::handler && third.met.what == "of what is told");
}

// An element that is not made: which ones are there.
void missing()
{
    const auto end = launch::run<keeper>(usual(), 6, [](std::uint32_t i) {
        if (i == 4) throw std::runtime_error("no element");
        keeper one;
        one.kind = int(10 * i);
        return one;
    });
    bool good = !end.is_good();
    const auto there = end.collect_by_index([](const keeper &of) { return of.kind; });
    for (const auto &one : there) good = good && one.second == int(10 * one.first);
    if (tests::prints()) good = good && there.size() == end.collect([](const keeper &) { return 1; }).size() && there.count(4) == 0 && there.count(0) == 1;
    else end.collect([](const keeper &) { return 1; });
    expect(at("which elements are there after a fault"), good);
}

// ---- Settings ----

// A field that pup forgets.
struct forgetful : tezgumi::chare {
    using messages = tezgumi::messages<int>;
    int kind = 0, kept = 0, forgotten = 0;
    std::uint32_t moves = 0, place = 0;
    void pup(pup::er &p) { p(kind, kept, moves, place); }
    void resume(tezgumi::round r, tezgumi::array<forgetful> &all)
    {
        if (r > 0 && place != all.pe()) moves++;
        place = all.pe();
        kept++;
        forgotten++;
        if (r == 5) return finish();
        at_sync();
    }
    void receive(int) {}
};

void forgotten()
{
    for (int kind = 0; kind < 2; kind++) {
        tezgumi::settings how = usual();
        how.every = 0;
        how.moves_all = kind == 1;
        const auto end = run_all<forgetful>(how, 12);
        bool good = end.is_good();
        for (const auto &one : end.collect([](const forgetful &of) { return std::make_tuple(of.kept, of.forgotten, of.moves); })) {
            good = good && one == std::make_tuple(6, kind == 1 ? 1 : 6, kind == 1 && pes > 1 ? 5u : 0u);
        }
        if (tests::prints()) {
            for (const auto &one : end.rounds) good = good && one.moved == (kind == 1 && pes > 1 ? 12u * 16u : 0u);
        }
        expect(at(kind == 1 ? "each element moves in each round" : "elements that are not balanced stay"), good);
    }
}

void settings()
{
    tezgumi::settings how = usual();
    how.tolerance = 100;
    bool is_refused = false;
    try {
        run_all<forgetful>(how, 1);
    } catch (const std::invalid_argument &) {
        is_refused = true;
    }
    expect(at("a tolerance without within"), is_refused);
}

void all()
{
    types();
    contributions();
    early_contributions();
    numbers();
    strangers();
    some();
    restored();
    missing();
    forgotten();
    settings();
}

} // namespace

int main(int argc, char **argv)
{
    launch::program program(argc, argv);
#ifdef WITH_MPI
    pes = program.pes(1);
    all();
#else
    for (std::uint32_t count : {1u, 2u, 3u, 5u, 8u}) {
        pes = count;
        all();
    }
#endif
    return tests::failed != 0;
}
