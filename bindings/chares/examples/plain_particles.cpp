// The program particles over MPI alone: each rank has a block of columns, and keeps it. It prints the same line.
//
//     mpicxx -std=c++17 -O2 plain_particles.cpp -o plain_particles
//     mpirun -n 4 ./plain_particles 256 20000 400
#include "particles.hpp"

#include <mpi.h>

#include <cinttypes>
#include <cstdio>
#include <cstdlib>

namespace {

using list = std::vector<particles::particle>;

// Sends these to the rank on the right, and adds what comes from the left.
void exchange(int rank, int ranks, const list &leave, list &mine)
{
    const int right = (rank + 1) % ranks, left = (rank + ranks - 1) % ranks, size = sizeof(particles::particle);
    int send = static_cast<int>(leave.size()), come = 0;
    MPI_Sendrecv(&send, 1, MPI_INT, right, 0, &come, 1, MPI_INT, left, 0, MPI_COMM_WORLD, MPI_STATUS_IGNORE);
    const std::size_t had = mine.size();
    mine.resize(had + static_cast<std::size_t>(come));
    MPI_Sendrecv(leave.data(), send * size, MPI_BYTE, right, 1, mine.data() + had, come * size, MPI_BYTE, left, 1, MPI_COMM_WORLD, MPI_STATUS_IGNORE);
}

} // namespace

int main(int argc, char **argv)
{
    MPI_Init(&argc, &argv);
    int rank = 0, ranks = 1;
    MPI_Comm_rank(MPI_COMM_WORLD, &rank);
    MPI_Comm_size(MPI_COMM_WORLD, &ranks);
    particles::setup of;
    of.side = argc > 1 ? static_cast<std::uint32_t>(std::atol(argv[1])) : 1024;
    of.count = argc > 2 ? static_cast<std::uint32_t>(std::atol(argv[2])) : 200000;
    of.steps = argc > 3 ? static_cast<std::uint32_t>(std::atol(argv[3])) : 1000;
    if (of.side < 4 || of.side % 2 != 0 || of.side < static_cast<std::uint32_t>(ranks)) {
        if (rank == 0) std::fputs("plain_particles [CELLS [PARTICLES [STEPS]]]\n", stderr);
        MPI_Finalize();
        return 2;
    }
    const std::uint32_t begin = static_cast<std::uint32_t>(std::uint64_t(of.side) * static_cast<unsigned>(rank) / static_cast<unsigned>(ranks));
    const std::uint32_t end = static_cast<std::uint32_t>(std::uint64_t(of.side) * (static_cast<unsigned>(rank) + 1) / static_cast<unsigned>(ranks));
    list mine, leave;
    const std::vector<std::uint32_t> counts = particles::counts(of);
    for (std::uint32_t column = begin; column < end; column++) particles::add_column(of, column, counts[column], mine);
    for (std::uint32_t step = 0; step < of.steps; step++) {
        leave.clear();
        std::size_t stay = 0;
        for (particles::particle &one : mine) {
            particles::move(of, one);
            if (one.x >= begin && one.x < end) mine[stay++] = one;
            else leave.push_back(one);
        }
        mine.resize(stay);
        exchange(rank, ranks, leave, mine);
    }
    std::uint64_t good = 0;
    for (const particles::particle &one : mine) good += particles::is_right(of, one);
    const std::uint64_t of_rank[3] = {mine.size(), good, particles::digest(mine)};
    std::uint64_t of_all[3] = {};
    MPI_Reduce(of_rank, of_all, 3, MPI_UINT64_T, MPI_SUM, 0, MPI_COMM_WORLD);
    if (rank == 0) std::printf("steps %u particles %" PRIu64 " right %" PRIu64 " digest %016" PRIx64 "\n", of.steps, of_all[0], of_all[1], of_all[2]);
    MPI_Finalize();
    return of_all[0] == of_all[1] ? 0 : 1;
}
