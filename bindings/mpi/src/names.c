/* Which rank each block of a division of parts goes to. */
#include "internal.h"

/* What this part has of each block, in bytes. */
static int hold(const tezgumi_mpi_search *s, uint64_t *held)
{
    const tezgumi_mpi_part *part = s->part;
    memset(held, 0, s->ranks * sizeof *held);
    if (part->count == 0) return TEZGUMI_OK;
    return tezgumi_mpi_inner(
        tezgumi_part_held(part->bytes, part->count, part->first, s->layout->cuts, (size_t)s->ranks + 1, held, s->ranks));
}

/* Block b goes to rank b. What each part has is written where the loads of the blocks were. */
static int keep_order(tezgumi_mpi_search *s)
{
    uint64_t leaves = 0;
    uint32_t b;
    int status = hold(s, s->block_loads);
    for (b = 0; b < s->ranks; b++) {
        s->layout->names[b] = b;
        if (b != s->rank) leaves += s->block_loads[b];
    }
    status = tezgumi_mpi_agree(s->comm, tezgumi_mpi_outcome_of(status, 0), 0, s->report);
    if (status != TEZGUMI_OK) return status;
    if (MPI_Allreduce(&leaves, &s->report->bytes_moved, 1, MPI_UINT64_T, MPI_SUM, s->comm) != MPI_SUCCESS) return TEZGUMI_MPI_ERROR;
    return TEZGUMI_OK;
}

/* Rows become columns. */
static void transpose(uint64_t *table, size_t n)
{
    size_t i, j;
    for (i = 0; i < n; i++) {
        for (j = i + 1; j < n; j++) {
            const uint64_t other = table[i * n + j];
            table[i * n + j] = table[j * n + i];
            table[j * n + i] = other;
        }
    }
}

/* Names the blocks by the table of what each has on each rank, with prices that stand behind it. The outcome's second part is the
 * flaw that was found. */
static tezgumi_mpi_outcome name(tezgumi_mpi_search *s, const uint64_t *table, int64_t *prices)
{
    const size_t n = s->ranks;
    uint64_t moved = 0;
    int status = tezgumi_mpi_inner(tezgumi_name(table, n * n, s->ranks, s->layout->names, n, prices, n, prices + n, n, &moved));
    s->report->bytes_moved = moved;
    if (status != TEZGUMI_OK || s->options->skip_check) return tezgumi_mpi_outcome_of(status, 0);
    status = tezgumi_check_names(table, n * n, s->ranks, s->layout->names, n, prices, n, prices + n, n, moved);
    if (status > TEZGUMI_OK) return tezgumi_mpi_outcome_of(TEZGUMI_MPI_WRONG_PLAN, (uint32_t)status);
    return tezgumi_mpi_outcome_of(tezgumi_mpi_inner(status), 0);
}

/* So that the fewest bytes move. */
static int name_by_table(tezgumi_mpi_search *s)
{
    const size_t n = s->ranks;
    uint64_t *table = (uint64_t *)malloc((n + 2) * n * sizeof *table);
    int status = table ? hold(s, table + s->rank * n) : TEZGUMI_NO_MEMORY;
    status = tezgumi_mpi_agree(s->comm, tezgumi_mpi_outcome_of(status, 0), 0, s->report);
    if (status == TEZGUMI_OK
        && MPI_Allgather(MPI_IN_PLACE, 0, MPI_DATATYPE_NULL, table, (int)n, MPI_UINT64_T, s->comm) != MPI_SUCCESS)
        status = TEZGUMI_MPI_ERROR;
    if (status == TEZGUMI_OK) {
        transpose(table, n);
        status = tezgumi_mpi_agree(s->comm, name(s, table, (int64_t *)(table + n * n)), 0, s->report);
    }
    free(table);
    return status;
}

int tezgumi_mpi_name_blocks(tezgumi_mpi_search *s)
{
    double since = MPI_Wtime();
    const int status = s->options->keep_order ? keep_order(s) : name_by_table(s);
    s->report->name_seconds = tezgumi_mpi_lap(&since);
    return status;
}
