/* A hundred cells, all of them on rank 0, each one more work than the one before. */
#include <stdio.h>
#include <tezgumi_mpi.h>

static double cell[100]; /* a rank uses those that it holds */
static int pack(void *app, uint32_t i, void *to, uint32_t n) { memcpy(to, (double *)app + i, n); return 0; }
static int unpack(void *app, uint32_t i, const void *from, uint32_t n) { memcpy((double *)app + i, from, n); return 0; }

int main(int argc, char **argv)
{
    const tezgumi_mpi_callbacks callbacks = {pack, unpack, NULL, cell};
    tezgumi_mpi_element mine[100];
    tezgumi_mpi_chain chain = {0};
    uint32_t i, first, end;
    int rank, status;
    MPI_Init(&argc, &argv);
    MPI_Comm_rank(MPI_COMM_WORLD, &rank);
    for (i = 0; i < 100; i++) mine[i] = (tezgumi_mpi_element){i, i, sizeof cell[i]}; /* load, index, bytes */
    status = tezgumi_mpi_rebalance(MPI_COMM_WORLD, mine, rank == 0 ? 100 : 0, &callbacks, NULL, &chain, NULL, NULL);
    tezgumi_mpi_range(&chain, rank, &first, &end);
    printf("rank %d: %s: cells %u to %u\n", rank, tezgumi_mpi_status_name(status), first, end);
    tezgumi_mpi_chain_free(&chain);
    return MPI_Finalize();
}
