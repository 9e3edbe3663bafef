// How a run ends in which an element fails: fails KIND ELEMENT [EVENTS]. The status is that of the run, or of the way in which its process ends.
#include "harness.hpp"

struct failing : tezgumi::chare {
    using messages = tezgumi::messages<std::uint32_t>;
    std::string kind;
    void pup(pup::er &p) { p(kind); }
    void resume(tezgumi::round, tezgumi::array<failing> &all) { all.self().send(all.me()); }
    void receive(std::uint32_t, tezgumi::array<failing> &all)
    {
        if (kind == "throw") throw std::runtime_error("of the test");
        if (kind == "exit") std::_Exit(9);
        if (kind == "abort") std::abort();
        // The others go on for ever.
        all.self().send(all.me());
    }
};

int main(int argc, char **argv)
{
    launch::program program(argc, argv);
    const std::string kind = argv[1];
    const std::uint32_t which = static_cast<std::uint32_t>(std::atoi(argv[2]));
    tezgumi::settings how;
    how.pes = program.pes(4);
    if (argc > 3) how.events = argv[3];
    const auto end = launch::run<failing>(how, 16, [&](std::uint32_t i) {
        failing one;
        if (i == which) one.kind = kind;
        return one;
    });
    // All ranks know the same.
    std::printf("%s\n", end.met.text().c_str());
    return end.status();
}
