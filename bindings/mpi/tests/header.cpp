// The header serves C++ too: a rebalance from there, with the callbacks as functions of C++.
#include <cstdio>
#include <vector>
#include <tezgumi_mpi.h>
#include <tezgumi_parts.h>

static int pack(void *app, uint32_t index, void *to, uint32_t bytes)
{
    memcpy(to, &(*static_cast<std::vector<double> *>(app))[index], bytes);
    return 0;
}

static int unpack(void *app, uint32_t index, const void *from, uint32_t bytes)
{
    memcpy(&(*static_cast<std::vector<double> *>(app))[index], from, bytes);
    return 0;
}

int main(int argc, char **argv)
{
    MPI_Init(&argc, &argv);
    int rank = 0;
    MPI_Comm_rank(MPI_COMM_WORLD, &rank);
    std::vector<double> values(50);
    std::vector<tezgumi_mpi_element> mine;
    for (uint32_t i = 0; rank == 0 && i < 50; i++) {
        values[i] = i + 1;
        mine.push_back(tezgumi_mpi_element{1, i, sizeof values[i]});
    }
    const tezgumi_mpi_callbacks callbacks = {pack, unpack, nullptr, &values};
    tezgumi_mpi_chain chain = {};
    const int status = tezgumi_mpi_rebalance(
        MPI_COMM_WORLD, mine.data(), static_cast<uint32_t>(mine.size()), &callbacks, nullptr, &chain, nullptr, nullptr);
    uint32_t first = 0, end = 0;
    int wrong = status != TEZGUMI_OK || !tezgumi_mpi_range(&chain, rank, &first, &end), all = 0;
    for (uint32_t i = first; i < end; i++) wrong += values[i] != i + 1;
    tezgumi_mpi_chain_free(&chain);
    MPI_Allreduce(&wrong, &all, 1, MPI_INT, MPI_SUM, MPI_COMM_WORLD);
    if (rank == 0) std::printf("%s: a program in C++\n", all ? "FAILED" : "ok");
    MPI_Finalize();
    return all != 0;
}
