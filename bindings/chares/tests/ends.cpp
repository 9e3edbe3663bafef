// Runs that an element ends, and messages that are sent once nothing else is to be done. On 1 to 5 PEs as threads, or on the ranks of MPI.
#include "page.hpp"

using tests::expect;
using tests::word;

namespace {

std::uint32_t pes = 1; // of the runs that come
std::string prefix; // of the files of events, if there are to be any

tezgumi::settings usual()
{
    tezgumi::settings how;
    how.pes = pes;
    how.clock = tezgumi::clock_kind::none;
    how.quiet = 2;
    how.events = prefix;
    return how;
}

std::string at(const std::string &name) { return name + ", " + std::to_string(pes) + " PEs"; }

template <class C> launch::outcome<C> run_all(const tezgumi::settings &how, std::uint32_t n, int kind = 0)
{
    return launch::run<C>(how, n, [kind](std::uint32_t) {
        C one;
        one.kind = kind;
        return one;
    });
}

// ---- An end that an element asks for ----

// Letters go round for ever, until an element has had its share of them.
struct runner : tezgumi::chare {
    static constexpr bool restores = true;
    using messages = tezgumi::messages<int>;
    int kind = 0, got = 0;
    void pup(pup::er &p) { p(kind, got); }
    void resume(tezgumi::round, tezgumi::array<runner> &all) { all[(all.me() + 1) % all.size()].send(0); }
    void receive(int, tezgumi::array<runner> &all)
    {
        all[(all.me() + 1) % all.size()].send(0);
        if (++got < 50) return;
        if (kind == 0 && all.me() == 4) exit(std::vector<std::uint32_t>{7, all.me(), all.size()});
        if (kind == 1 && all.me() == 2) exit();
        if (kind == 2) exit(all.me());
        // What a handler says that throws is not said.
        if (kind == 3 && all.me() == 1 && word(5)++ < 3) {
            exit(std::string("of one that throws"));
            throw std::runtime_error("of the test");
        }
        if (kind == 3 && all.me() == 3 && got == 200) exit(std::string("of one that does not"));
    }
};

template <class F> bool throws(F &&run)
{
    try {
        run();
    } catch (const std::exception &) {
        return true;
    }
    return false;
}

void exits()
{
    for (int kind = 0; kind < 4; kind++) {
        tests::clear_page();
        const auto end = run_all<runner>(usual(), 6, kind);
        bool good = end.is_good() && end.has_exited() && end.status() == 0 && end.letters.posted == end.letters.executed + end.letters.held;
        good = good && end.letters.held > 0 && end.letters.executed >= 50;
        if (kind == 0) good = good && end.exit.element == 4 && end.template exit_value<std::vector<std::uint32_t>>() == std::vector<std::uint32_t>{7, 4, 6};
        if (kind == 0) good = good && throws([&] { end.template exit_value<double>(); });
        if (kind == 1) good = good && end.exit.element == 2 && end.exit.value.empty();
        if (kind == 2) good = good && end.template exit_value<std::uint32_t>() == end.exit.element;
        if (kind == 3) good = good && end.exit.element == 3 && end.template exit_value<std::string>() == "of one that does not" && end.letters.failed == 3;
        std::uint64_t there = end.elements.size();
#ifdef WITH_MPI
        MPI_Allreduce(MPI_IN_PLACE, &there, 1, MPI_UINT64_T, MPI_SUM, MPI_COMM_WORLD);
        std::uint32_t least = end.exit.element;
        MPI_Allreduce(MPI_IN_PLACE, &least, 1, MPI_UINT32_T, MPI_MIN, MPI_COMM_WORLD);
        good = good && least == end.exit.element;
#endif
        expect(at("an element ends the run, kind " + std::to_string(kind)), good && there == 6);
    }
}

struct finisher : tezgumi::chare {
    using messages = tezgumi::messages<int>;
    int kind = 0;
    void pup(pup::er &p) { p(kind); }
    void resume(tezgumi::round, tezgumi::array<finisher> &all)
    {
        if (kind == 1) all.when_quiet(1);
        finish();
    }
    void receive(int) { word(0)++; }
};

void none_exits()
{
    tests::clear_page();
    const auto end = run_all<finisher>(usual(), 4);
    expect(at("no element ends the run"), end.is_good() && !end.has_exited() && throws([&] { end.template exit_value<int>(); }));
    const auto late = run_all<finisher>(usual(), 4, 1);
    expect(at("a run that ends before it is quiet"), late.is_good() && late.letters.posted == 16 && late.letters.held == 16 && word(0) == 0);
}

// ---- Messages that are sent once nothing else is to be done ----

// In each phase letters are handed on, and the message of the next phase comes behind all of them: to all, or to one, short or long.
struct phased : tezgumi::chare {
    using messages = tezgumi::messages<int, std::string, std::vector<int>>;
    static constexpr int phases = 5, hops = 40;
    int kind = 0, phase = 0;
    std::vector<double> ballast;
    void pup(pup::er &p) { p(kind, phase, ballast); }
    void resume(tezgumi::round r, tezgumi::array<phased> &all)
    {
        work(1 + all.me());
        ballast.resize(100 * all.me());
        // With rounds in between elements move while the message waits.
        if (r == 0) {
            if (all.me() == 0) begin(all);
            if (kind == 1) at_sync();
        } else if (r < 4) {
            at_sync();
        }
    }
    void begin(tezgumi::array<phased> &all)
    {
        if (all.me() == 0) {
            if (phase % 3 == 0) all.when_quiet(std::string(5000, 'p'));
            if (phase % 3 == 1) all.when_quiet(std::vector<int>{phase});
            if (phase % 3 == 2) all[all.size() - 1].when_quiet(std::string(2000, 'q'));
        }
        all[(all.me() + 1) % all.size()].send(hops);
    }
    void receive(int left, tezgumi::array<phased> &all)
    {
        work(1);
        word(0)++;
        if (left > 1) all[(all.me() + 3) % all.size()].send(left - 1);
    }
    void receive(const std::string &text, tezgumi::array<phased> &all)
    {
        work(1);
        // It goes to all in turn from the last one.
        if (text[0] == 'q') return all.send(std::vector<int>{-1});
        next(all);
    }
    void receive(const std::vector<int> &of, tezgumi::array<phased> &all)
    {
        work(1);
        if (of[0] >= 0 && of[0] != phase) word(2) = 1;
        next(all);
    }
    void next(tezgumi::array<phased> &all)
    {
        // All letters of the phase have been handled: those of the first element, and then of all.
        const std::uint64_t expected = std::uint64_t(hops) * (1 + std::uint64_t(phase) * all.size());
        if (++word(static_cast<std::size_t>(10 + phase)) == 1 && word(0) != expected) word(1) = 1;
        phase++;
        if (phase == phases) return finish();
        begin(all);
    }
};

// As soon as one element begins the next phase its letters are under way, so only the first to come sees all of the one before.
void phases()
{
    for (int kind = 0; kind < 2; kind++) {
        tests::clear_page();
        const std::uint32_t n = 7;
        const auto end = run_all<phased>(usual(), n, kind);
        const bool good = end.is_good() && word(1) == 0 && word(2) == 0 && end.letters.posted == end.letters.executed + end.letters.held;
        expect(at(kind == 0 ? "messages that wait until nothing is to be done" : "such messages, and elements that move"), good);
    }
}

// Two such messages of two elements leave together; and then the run is quiet.
struct pair : tezgumi::chare {
    using messages = tezgumi::messages<int>;
    int kind = 0;
    void pup(pup::er &p) { p(kind); }
    void resume(tezgumi::round, tezgumi::array<pair> &all)
    {
        if (all.me() == 0) all[all.size() - 1].when_quiet(5);
        if (all.me() + 1 == all.size()) all[0].when_quiet(6);
    }
    void receive(int which) { word(static_cast<std::size_t>(which))++; }
};

void quiet_again()
{
    tests::clear_page();
    const auto end = run_all<pair>(usual(), 4);
    const bool good = end.met.kind == tezgumi::fault_kind::quiet && end.letters.executed == 2 && end.letters.held == 0;
    expect(at("a run is quiet once such messages have come"), good && word(5) == 1 && word(6) == 1);
}

// In each round another PE takes long, and no PE sends a message to another: that is not quiet.
struct sleeper : tezgumi::chare {
    using messages = tezgumi::messages<int>;
    int kind = 0;
    void pup(pup::er &p) { p(kind); }
    void resume(tezgumi::round r, tezgumi::array<sleeper> &all)
    {
        if (r % all.pes() == all.pe()) tests::sleep(6);
        if (r == 20) return finish();
        at_sync();
    }
    void receive(int) {}
};

void slow_in_turn()
{
    tezgumi::settings how = usual();
    how.every = 0;
    const auto end = run_all<sleeper>(how, pes);
    if (!end.is_good() && tests::prints()) std::cerr << end.met.text() << std::endl;
    expect(at("a run whose PEs take long in turn"), end.is_good() && end.rounds.size() == (tests::prints() ? 20 : 0));
}

void all()
{
    exits();
    none_exits();
    phases();
    quiet_again();
    slow_in_turn();
}

} // namespace

// With a word: the prefix of files of events, which each run writes anew.
int main(int argc, char **argv)
{
    launch::program program(argc, argv);
    if (argc > 1) prefix = argv[1];
    tests::clear_page();
#ifdef WITH_MPI
    pes = program.pes(1);
    all();
#else
    for (std::uint32_t count : {1u, 2u, 3u, 5u}) {
        pes = count;
        all();
    }
#endif
    return tests::failed != 0;
}
