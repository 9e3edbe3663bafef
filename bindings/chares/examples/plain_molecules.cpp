// The program molecules over MPI alone: each rank has a block of rows of cells, and keeps it. It prints the same line.
//
//     mpicxx -std=c++17 -O2 -ffp-contract=off plain_molecules.cpp -o plain_molecules
//     mpirun -n 4 ./plain_molecules 12 60 100
#include "molecules.hpp"

#include <mpi.h>

#include <cinttypes>
#include <cstdio>
#include <cstdlib>

namespace {

using molecules::atoms;

// Lists of atoms for the rank above or below, and what comes from the other side in their place.
std::vector<atoms> exchanged(const std::vector<atoms> &lists, int to, int from)
{
    std::vector<int> counts, come(lists.size());
    atoms all;
    for (const atoms &one : lists) {
        counts.push_back(static_cast<int>(one.size()));
        all.insert(all.end(), one.begin(), one.end());
    }
    const int n = static_cast<int>(lists.size()), size = sizeof(molecules::atom);
    MPI_Sendrecv(counts.data(), n, MPI_INT, to, 0, come.data(), n, MPI_INT, from, 0, MPI_COMM_WORLD, MPI_STATUS_IGNORE);
    std::size_t sum = 0;
    for (int one : come) sum += static_cast<std::size_t>(one);
    atoms got(sum);
    MPI_Sendrecv(all.data(), static_cast<int>(all.size()) * size, MPI_BYTE, to, 1, got.data(), static_cast<int>(sum) * size, MPI_BYTE, from, 1, MPI_COMM_WORLD, MPI_STATUS_IGNORE);
    std::vector<atoms> result;
    auto at = got.begin();
    for (int one : come) {
        result.emplace_back(at, at + one);
        at += one;
    }
    return result;
}

} // namespace

int main(int argc, char **argv)
{
    MPI_Init(&argc, &argv);
    int rank = 0, ranks = 1;
    MPI_Comm_rank(MPI_COMM_WORLD, &rank);
    MPI_Comm_size(MPI_COMM_WORLD, &ranks);
    const auto word = [&](int at, std::uint32_t usual) { return argc > at ? static_cast<std::uint32_t>(std::atol(argv[at])) : usual; };
    molecules::torus of;
    of.side = word(1, 24);
    of.count = word(2, 100);
    of.steps = word(3, 200);
    if (of.side < 3 || of.side < static_cast<std::uint32_t>(ranks)) {
        if (rank == 0) std::fputs("plain_molecules [CELLS [ATOMS [STEPS]]]\n", stderr);
        MPI_Finalize();
        return 2;
    }
    const auto first_row = [&](int r) { return static_cast<std::uint32_t>(std::uint64_t(of.side) * static_cast<unsigned>(r) / static_cast<unsigned>(ranks)); };
    const std::uint32_t begin = first_row(rank), rows = first_row(rank + 1) - begin, n = of.side;
    const int above = (rank + ranks - 1) % ranks, below = (rank + 1) % ranks;
    // The own rows stand behind the last row of the rank above, and before the first of the one below.
    std::vector<std::vector<atoms>> cells(rows + 2, std::vector<atoms>(n));
    std::uint32_t first = 0;
    for (std::uint32_t cell = 0; cell < of.cells(); cell++) {
        if (cell / n >= begin && cell / n < begin + rows) molecules::add_cell(of, cell, first, cells[cell / n - begin + 1][cell % n]);
        first += molecules::count_of(of, cell);
    }
    for (std::uint32_t step = 0; step < of.steps; step++) {
        cells[rows + 1] = exchanged(cells[1], above, below);
        cells[0] = exchanged(cells[rows], below, above);
        std::vector<std::vector<std::array<molecules::forces, molecules::slots>>> by(rows + 2, std::vector<std::array<molecules::forces, molecules::slots>>(n));
        // The pairs of each own cell, and those of the row above in which an own cell is the second.
        for (std::uint32_t row = 0; row <= rows; row++) {
            for (std::uint32_t column = 0; column < n; column++) {
                const std::uint32_t cell = of.cell((begin + row + n - 1) % n, column);
                for (int k = 0; k < molecules::pairs; k++) {
                    const auto &offset = molecules::offsets[static_cast<std::size_t>(k)];
                    if (row == 0 && offset[0] == 0) continue;
                    const std::uint32_t other_row = row + static_cast<std::uint32_t>(offset[0]), other = (column + n + static_cast<std::uint32_t>(offset[1])) % n;
                    molecules::forces unused, &on_second = k == 0 ? unused : by[other_row][other][static_cast<std::size_t>(molecules::pairs + k - 1)];
                    molecules::push_all(of, cell, k, cells[row][column], cells[other_row][other], by[row][column][static_cast<std::size_t>(k)], on_second);
                }
            }
        }
        std::vector<std::vector<atoms>> come(rows + 2, std::vector<atoms>(n));
        for (std::uint32_t row = 1; row <= rows; row++) {
            for (std::uint32_t column = 0; column < n; column++) {
                std::array<atoms, 9> leave;
                molecules::move_all(of, of.cell(begin + row - 1, column), by[row][column], cells[row][column], leave);
                for (std::uint32_t to = 0; to < 9; to++) {
                    atoms &there = come[row + to / 3 - 1][(column + n + to % 3 - 1) % n];
                    there.insert(there.end(), leave[to].begin(), leave[to].end());
                }
            }
        }
        const std::vector<atoms> from_below = exchanged(come[0], above, below), from_above = exchanged(come[rows + 1], below, above);
        for (std::uint32_t column = 0; column < n; column++) {
            come[rows][column].insert(come[rows][column].end(), from_below[column].begin(), from_below[column].end());
            come[1][column].insert(come[1][column].end(), from_above[column].begin(), from_above[column].end());
        }
        for (std::uint32_t row = 1; row <= rows; row++) {
            for (std::uint32_t column = 0; column < n; column++) {
                cells[row][column].insert(cells[row][column].end(), come[row][column].begin(), come[row][column].end());
                molecules::sort(cells[row][column]);
            }
        }
    }
    std::uint64_t mine[2] = {}, all[2] = {};
    for (std::uint32_t row = 1; row <= rows; row++) {
        for (const atoms &one : cells[row]) {
            mine[0] += one.size();
            mine[1] += molecules::digest(one);
        }
    }
    MPI_Reduce(mine, all, 2, MPI_UINT64_T, MPI_SUM, 0, MPI_COMM_WORLD);
    if (rank == 0) std::printf("steps %u atoms %" PRIu64 " digest %016" PRIx64 "\n", of.steps, all[0], all[1]);
    MPI_Finalize();
    return 0;
}
