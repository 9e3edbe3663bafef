// A hundred counters, which the first one wakes. Each does more work than the one before, so they are balanced.
//
//     g++ -std=c++17 -O2 first.cpp $(pkg-config --cflags --libs tezgumi-chares) -pthread -o first && ./first
#include <tezgumi/chares.hpp>

#include <cstdio>
namespace pup = tezgumi::pup;

struct counter : tezgumi::chare {
    using messages = tezgumi::messages<std::string>;

    std::string heard;
    double sum = 0;

    void pup(pup::er &p) { p(heard, sum); }

    void resume(tezgumi::round r, tezgumi::array<counter> &all)
    {
        if (r == 0 && all.me() == 0) all.send(std::string("wake up"));
        if (r == 1) {
            sum = all.result<double>();
            finish();
        }
    }
    void receive(const std::string &text, tezgumi::array<counter> &all)
    {
        heard = text;
        work(1 + all.me());
        contribute(tezgumi::sum(0.5 * all.me()));
        at_sync();
    }
};

int main()
{
    tezgumi::settings how;
    how.pes = 4;
    how.clock = tezgumi::clock_kind::none; // handlers name their work
    how.on_round = [](const tezgumi::round_report &of) {
        std::printf("round %d: greatest load %d, then %d\n", int(of.round), int(of.greatest), int(of.bottleneck));
    };
    const auto end = tezgumi::run<counter>(how, 100, [](std::uint32_t) { return counter(); });
    std::printf("%s: %d letters, sum %g\n", end.met.word(), int(end.letters.executed), end.elements.at(99)->sum);
    return end.status();
}
