// Letters between chares, and the processor time that one takes: on threads, or on ranks where WITH_MPI is defined.
//
//     letters WHERE ELEMENTS TOKENS HOPS BYTES [PES]
//
// Each element has so many tokens, and whoever gets one sends it on, until it has had its hops. Where `WHERE` is `away` it goes to the element
// half the array further, which is on another PE where there are two of them; where it is `here`, to a neighbor on the same PE. A letter has a
// word and so many bytes. Nothing is balanced.
//
// It prints the letters, a sum over them that benches/chares_cpp/plain_mpi.c prints too, the nanoseconds of processor time of a letter
// over all PEs, and the greatest resident memory of a process, in KiB.
#include "../../bindings/chares/examples/launch.hpp"

#include <sys/resource.h>

#include <atomic>

// The processor time of this process, as its first element starts and as its last one finishes: what comes before and behind is no letter's.
static std::atomic<double> begun{0}, ended{0};

static double processor_seconds()
{
    rusage used;
    getrusage(RUSAGE_SELF, &used);
    return static_cast<double>(used.ru_utime.tv_sec + used.ru_stime.tv_sec) + 1e-6 * static_cast<double>(used.ru_utime.tv_usec + used.ru_stime.tv_usec);
}

// The greatest resident memory of this program, in KiB. (That of getrusage may be of the program that started it.)
static long greatest_memory()
{
    long found = 0;
    char line[256];
    std::FILE *status = std::fopen("/proc/self/status", "r");
    while (status && std::fgets(line, sizeof line, status)) {
        if (std::strncmp(line, "VmHWM:", 6) == 0) found = std::strtol(line + 6, nullptr, 10);
    }
    if (status) std::fclose(status);
    return found;
}

struct token {
    std::uint32_t left = 0;
    std::vector<std::uint8_t> body;
    void pup(pup::er &p) { p(left, body); }
};

struct post : tezgumi::chare {
    using messages = tezgumi::messages<token>;
    std::uint32_t to = 0, tokens = 0, awaited = 0, got = 0, hops = 0, bytes = 0;
    std::uint64_t sum = 0;
    void pup(pup::er &p) { p(to, tokens, awaited, got, hops, bytes, sum); }
    void resume(tezgumi::round, tezgumi::array<post> &all)
    {
        if (begun == 0) begun = processor_seconds();
        token one;
        one.left = hops;
        one.body.assign(bytes, static_cast<std::uint8_t>(all.me()));
        for (std::uint32_t k = 0; k < tokens; k++) all[to].send(one);
        if (awaited == 0) finish();
    }
    void receive(token &&one, tezgumi::array<post> &all)
    {
        work(1);
        sum += std::uint64_t(one.left) * (one.body.empty() ? 1u : 1u + one.body[one.body.size() / 2]);
        if (--one.left > 0) all[to].send(one);
        if (++got < awaited) return;
        ended = processor_seconds();
        finish();
    }
};

int main(int argc, char **argv)
{
    launch::program program(argc, argv);
    if (argc < 6) return 2;
    const bool away = std::strcmp(argv[1], "away") == 0;
    const auto number = [argv](int at) { return static_cast<std::uint32_t>(std::strtoul(argv[at], nullptr, 10)); };
    const std::uint32_t n = number(2), tokens = number(3), hops = number(4), bytes = number(5);
    tezgumi::settings how;
    how.pes = program.pes(argc > 6 ? number(6) : 2);
    how.every = 0;
    how.clock = tezgumi::clock_kind::none;
    const auto end = launch::run<post>(how, n, [=](std::uint32_t i) {
        post one;
        one.to = away ? (i + n / 2) % n : i ^ 1;
        one.tokens = tokens;
        one.hops = hops;
        one.bytes = bytes;
        one.awaited = tokens * hops;
        return one;
    });
    double used = ended - begun;
    long memory = greatest_memory();
#ifdef WITH_MPI
    MPI_Allreduce(MPI_IN_PLACE, &used, 1, MPI_DOUBLE, MPI_SUM, MPI_COMM_WORLD);
    MPI_Allreduce(MPI_IN_PLACE, &memory, 1, MPI_LONG, MPI_MAX, MPI_COMM_WORLD);
#endif
    std::uint64_t sum = 0;
    for (std::uint64_t one : end.collect([](const post &of) { return of.sum; })) sum = sum * 31 + one;
    const double letters = static_cast<double>(end.letters.executed);
    if (program.prints()) std::printf("letters %.0f sum %016llx ns %.1f KiB %ld\n", letters, static_cast<unsigned long long>(sum), 1e9 * used / letters, memory);
    return end.status();
}
