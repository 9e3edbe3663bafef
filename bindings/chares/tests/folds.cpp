// Folds that wait for no round: to all, to one, while elements move, and such that do not fit together. On 1 to 5 PEs as threads, or on the ranks
// of MPI.
#include "harness.hpp"

using tests::expect;

namespace {

std::uint32_t pes = 1; // of the runs that come
std::string prefix; // of the files of events, if there are to be any

tezgumi::settings usual()
{
    tezgumi::settings how;
    how.pes = pes;
    how.clock = tezgumi::clock_kind::none;
    how.quiet = 2;
    how.events = prefix;
    return how;
}

std::string at(const std::string &name) { return name + ", " + std::to_string(pes) + " PEs"; }

template <class C> launch::outcome<C> run_all(const tezgumi::settings &how, std::uint32_t n, int kind = 0)
{
    return launch::run<C>(how, n, [kind](std::uint32_t) {
        C one;
        one.kind = kind;
        return one;
    });
}

double part(std::uint32_t i, std::uint64_t key) { return 1.0 / (3 + i + 7 * static_cast<double>(key)); }
double whole(std::uint32_t n, std::uint64_t key)
{
    double sum = part(0, key);
    for (std::uint32_t i = 1; i < n; i++) sum += part(i, key);
    return sum;
}

// Each contributes to many folds, from letters that come in any order: of kind 0 and 1 to all, of kind 2 and 3 to the last element; and in kind 1
// and 3 elements move from round to round.
struct folder : tezgumi::chare {
    using messages = tezgumi::messages<int, tezgumi::folded>;
    static constexpr int folds = 24;
    int kind = 0, given = 0;
    bool is_right = true;
    std::vector<std::uint64_t> seen;
    std::vector<double> ballast;
    void pup(pup::er &p) { p(kind, given, is_right, seen, ballast); }
    void resume(tezgumi::round r, tezgumi::array<folder> &all)
    {
        ballast.resize(50 * all.me());
        if (r == 0) all.self().send(0);
        if (kind % 2 == 1 && r < 30) at_sync();
    }
    void receive(int key, tezgumi::array<folder> &all)
    {
        given++;
        if (kind < 2) contribute(static_cast<std::uint64_t>(key), tezgumi::sum(part(all.me(), static_cast<std::uint64_t>(key))), all);
        else contribute(static_cast<std::uint64_t>(key), tezgumi::sum(part(all.me(), static_cast<std::uint64_t>(key))), all[all.size() - 1]);
        if (key + 1 < folds) return all.self().send(key + 1);
        if (kind >= 2 && all.me() + 1 != all.size()) finish();
        ends(all);
    }
    void receive(const tezgumi::folded &of, tezgumi::array<folder> &all)
    {
        is_right = is_right && of.result<double>() == whole(all.size(), of.key);
        seen.push_back(of.key);
        ends(all);
    }
    void ends(tezgumi::array<folder> &all)
    {
        if (given == folds && seen.size() == folds && (kind < 2 || all.me() + 1 == all.size())) finish();
    }
};

void sums()
{
    for (int kind = 0; kind < 4; kind++) {
        const std::uint32_t n = 11;
        tezgumi::settings how = usual();
        how.moves_all = kind % 2 == 1;
        const auto end = run_all<folder>(how, n, kind);
        bool good = end.is_good() && end.letters.posted == end.letters.executed + end.letters.held;
        std::size_t all = 0;
        for (auto &one : end.collect([](const folder &of) { return std::make_pair(of.is_right, of.seen); })) {
            good = good && one.first;
            auto keys = one.second;
            std::sort(keys.begin(), keys.end());
            for (std::size_t i = 0; i < keys.size(); i++) good = good && keys[i] == i;
            all += keys.size();
        }
        if (tests::prints()) good = good && all == std::size_t(folder::folds) * (kind < 2 ? n : 1);
        if (!good && tests::prints()) std::cerr << end.met.text() << std::endl;
        const char *const names[] = {"sums to all", "sums to all, and elements that move", "sums to one", "sums to one, and elements that move"};
        expect(at(names[kind]), good);
    }
}

// Several folds of a handler, of lists and of other kinds, and a key that is used again. And contributions that do not fit together.
struct mixer : tezgumi::chare {
    using messages = tezgumi::messages<tezgumi::folded>;
    static constexpr bool restores = true;
    int kind = 0, phase = 0, got = 0;
    std::int64_t total = 0;
    void pup(pup::er &p) { p(kind, phase, got, total); }
    void resume(tezgumi::round, tezgumi::array<mixer> &all)
    {
        if (kind == 1 && all.me() == 2) return;
        give(all);
        if (kind == 2 && all.me() == 1) contribute(7, tezgumi::sum(1), all);
    }
    void give(tezgumi::array<mixer> &all)
    {
        const auto me = static_cast<std::int64_t>(all.me());
        contribute(7, kind == 3 && me == 3 ? tezgumi::greatest(me) : tezgumi::sum(me + phase), all);
        contribute(8, tezgumi::greatest(std::vector<std::int64_t>{me, -me}), all);
    }
    void receive(const tezgumi::folded &of, tezgumi::array<mixer> &all)
    {
        const auto n = static_cast<std::int64_t>(all.size());
        if (of.key == 7) total += of.result<std::int64_t>();
        if (of.key == 8 && of.results<std::int64_t>() != std::vector<std::int64_t>{n - 1, 0}) total = -1000000;
        if (++got % 2 != 0) return;
        if (++phase == 5) return finish();
        give(all);
    }
};

void mixed()
{
    const std::uint32_t n = 6;
    const auto end = run_all<mixer>(usual(), n);
    bool good = end.is_good();
    for (std::int64_t one : end.collect([](const mixer &of) { return of.total; })) good = good && one == 5 * 15 + 6 * 10;
    expect(at("folds of several kinds, and keys that are used again"), good);
    const auto lacking = run_all<mixer>(usual(), n, 1).met;
    expect(at("a fold to which one does not contribute"), lacking.kind == tezgumi::fault_kind::quiet && lacking.what.find("6 of 6 elements") == 0);
    const auto twice = run_all<mixer>(usual(), n, 2).met;
    expect(at("an element that contributes twice"), twice.kind == tezgumi::fault_kind::input && twice.element == 1 && twice.what == "the element contributes twice to fold 7");
    const auto uneven = run_all<mixer>(usual(), n, 3).met;
    expect(at("contributions of other kinds"), uneven.kind == tezgumi::fault_kind::input && uneven.element == 3 && uneven.what == "contributions to fold 7 differ in kind or in length");
}

void all()
{
    sums();
    mixed();
}

} // namespace

// With a word: the prefix of files of events, which each run writes anew.
int main(int argc, char **argv)
{
    launch::program program(argc, argv);
    if (argc > 1) prefix = argv[1];
#ifdef WITH_MPI
    pes = program.pes(1);
    all();
#else
    for (std::uint32_t count : {1u, 2u, 3u, 5u}) {
        pes = count;
        all();
    }
#endif
    return tests::failed != 0;
}
