// A page of numbers that all PEs of a run share, be they threads or ranks of one machine: so a handler on one may wait for what happens on
// another, and tests count turns in place of time.
#ifndef PAGE_HPP
#define PAGE_HPP

#include "harness.hpp"

#include <atomic>

#ifdef WITH_MPI
#include <fcntl.h>
#include <sys/mman.h>
#include <unistd.h>
#endif

namespace tests {

struct page {
    std::atomic<std::uint64_t> words[64];
};

#ifdef WITH_MPI
// All ranks call it once. It is a file that all have mapped, and that has no name by then.
inline page &shared_page()
{
    static page *const all = [] {
        char name[] = "/tmp/tezgumi_page_XXXXXX";
        int rank = 0;
        MPI_Comm_rank(MPI_COMM_WORLD, &rank);
        int file = rank == 0 ? mkstemp(name) : -1;
        if (rank == 0 && (file < 0 || ftruncate(file, sizeof(page)) != 0)) MPI_Abort(MPI_COMM_WORLD, 9);
        MPI_Bcast(name, sizeof name, MPI_CHAR, 0, MPI_COMM_WORLD);
        if (rank != 0) file = open(name, O_RDWR);
        void *const at = mmap(nullptr, sizeof(page), PROT_READ | PROT_WRITE, MAP_SHARED, file, 0);
        if (at == MAP_FAILED) MPI_Abort(MPI_COMM_WORLD, 9);
        MPI_Barrier(MPI_COMM_WORLD);
        close(file);
        if (rank == 0) unlink(name);
        return static_cast<page *>(at);
    }();
    return *all;
}
#else
inline page &shared_page()
{
    static page all;
    return all;
}
#endif

inline std::atomic<std::uint64_t> &word(std::size_t i) { return shared_page().words[i]; }

// Before a test, on all ranks.
inline void clear_page()
{
    everywhere(true);
    for (auto &one : shared_page().words) one = 0;
    everywhere(true);
}

// Waits until this is so, and says whether that came in time.
template <class F> bool waits_for(F &&is_so, int seconds = 5)
{
    const auto until = std::chrono::steady_clock::now() + std::chrono::seconds(seconds);
    while (!is_so()) {
        if (std::chrono::steady_clock::now() > until) return false;
        std::this_thread::sleep_for(std::chrono::microseconds(200));
    }
    return true;
}

inline void sleep(int milliseconds) { std::this_thread::sleep_for(std::chrono::milliseconds(milliseconds)); }

} // namespace tests

#endif
