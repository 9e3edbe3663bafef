// The program stencil over MPI alone: each rank has a block of rows, and keeps it. It prints the same line.
//
//     mpicxx -std=c++17 -O2 -ffp-contract=off plain_stencil.cpp -o plain_stencil
//     mpirun -n 4 ./plain_stencil 256 200
#include "stencil.hpp"

#include <mpi.h>

#include <cinttypes>
#include <cstdio>
#include <cstdlib>
#include <vector>

int main(int argc, char **argv)
{
    MPI_Init(&argc, &argv);
    int rank = 0, ranks = 1;
    MPI_Comm_rank(MPI_COMM_WORLD, &rank);
    MPI_Comm_size(MPI_COMM_WORLD, &ranks);
    const auto word = [&](int at, std::uint32_t usual) { return argc > at ? static_cast<std::uint32_t>(std::atol(argv[at])) : usual; };
    stencil::plate of;
    of.side = word(1, 512);
    of.steps = word(2, 400);
    of.period = word(3, 400);
    of.parts = word(4, 64);
    if (of.side < static_cast<std::uint32_t>(ranks) || of.period == 0) {
        if (rank == 0) std::fputs("plain_stencil [CELLS [STEPS [PERIOD [PARTS]]]]\n", stderr);
        MPI_Finalize();
        return 2;
    }
    const auto first_row = [&](int of_rank) { return static_cast<std::uint32_t>(std::uint64_t(of.side) * static_cast<unsigned>(of_rank) / static_cast<unsigned>(ranks)); };
    const std::uint32_t begin = first_row(rank), rows = first_row(rank + 1) - begin, n = of.side;
    const int above = rank > 0 ? rank - 1 : MPI_PROC_NULL, below = rank + 1 < ranks ? rank + 1 : MPI_PROC_NULL, width = static_cast<int>(n);
    // A row of the neighbor stands before the own rows, and one behind them.
    std::vector<double> cells(std::size_t(rows + 2) * n), next(cells.size());
    for (std::uint32_t step = 0; step < of.steps; step++) {
        double *const own = cells.data() + n;
        MPI_Sendrecv(own, width, MPI_DOUBLE, above, 0, own + std::size_t(rows) * n, width, MPI_DOUBLE, below, 0, MPI_COMM_WORLD, MPI_STATUS_IGNORE);
        MPI_Sendrecv(own + std::size_t(rows - 1) * n, width, MPI_DOUBLE, below, 1, cells.data(), width, MPI_DOUBLE, above, 1, MPI_COMM_WORLD, MPI_STATUS_IGNORE);
        for (std::uint32_t row = 0; row < rows; row++) {
            const double *const here = own + std::size_t(row) * n;
            for (std::uint32_t column = 0; column < n; column++) {
                const double left = column > 0 ? here[column - 1] : 0, right = column + 1 < n ? here[column + 1] : 0;
                const double up = begin + row > 0 ? (here - n)[column] : 0, down = begin + row + 1 < n ? (here + n)[column] : 0;
                next[std::size_t(row + 1) * n + column] = of.next(of.is_hot(begin + row, column, step), left, right, up, down);
            }
        }
        cells.swap(next);
    }
    std::uint64_t mine = 0, all = 0;
    for (std::uint32_t row = 0; row < rows; row++) {
        for (std::uint32_t column = 0; column < n; column++) mine += stencil::digest(begin + row, column, cells[std::size_t(row + 1) * n + column]);
    }
    MPI_Reduce(&mine, &all, 1, MPI_UINT64_T, MPI_SUM, 0, MPI_COMM_WORLD);
    if (rank == 0) std::printf("steps %u cells %" PRIu64 " digest %016" PRIx64 "\n", of.steps, std::uint64_t(n) * n, all);
    MPI_Finalize();
    return 0;
}
