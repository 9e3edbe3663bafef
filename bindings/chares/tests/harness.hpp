// Tests that run on threads, or on ranks: each prints a line.
#ifndef HARNESS_HPP
#define HARNESS_HPP

#include "../examples/launch.hpp"

#include <iostream>

namespace tests {

inline int failed = 0;

// Whether this is so on all ranks.
inline bool everywhere(bool good)
{
#ifdef WITH_MPI
    int all = good ? 1 : 0;
    MPI_Allreduce(MPI_IN_PLACE, &all, 1, MPI_INT, MPI_MIN, MPI_COMM_WORLD);
    return all != 0;
#else
    return good;
#endif
}

inline bool prints()
{
#ifdef WITH_MPI
    int rank = 0;
    MPI_Comm_rank(MPI_COMM_WORLD, &rank);
    return rank == 0;
#else
    return true;
#endif
}

// One test, which all ranks take.
inline void expect(const std::string &name, bool good)
{
    good = everywhere(good);
    if (!good) failed++;
    if (prints()) std::cout << (good ? "ok: " : "FAILED: ") << name << std::endl;
}

} // namespace tests

#endif
