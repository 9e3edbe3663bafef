/* The chain of all elements, and how every rank comes to know it. */
#include "internal.h"

void tezgumi_mpi_chain_free(tezgumi_mpi_chain *chain)
{
    if (!chain) return;
    free(chain->room);
    memset(chain, 0, sizeof *chain);
}

int tezgumi_mpi_range(const tezgumi_mpi_chain *chain, int rank, uint32_t *first, uint32_t *end)
{
    uint32_t i, held = 0;
    *first = *end = 0;
    for (i = 0; i < chain->n; i++) {
        if (chain->places[i] != (uint32_t)rank) continue;
        if (held == 0) *first = i;
        *end = i + 1;
        held++;
    }
    return *end - *first == held;
}

int tezgumi_mpi_fits(MPI_Comm comm, const tezgumi_mpi_chain *chain)
{
    int ranks;
    if (!chain || !chain->room || MPI_Comm_size(comm, &ranks) != MPI_SUCCESS) return 0;
    return chain->ranks == (uint32_t)ranks && chain->ranks <= TEZGUMI_MPI_GATHERED_RANKS && chain->n <= chain->capacity;
}

/* Room for n elements, from the last time or anew. */
static int chain_room(tezgumi_mpi_chain *chain, uint32_t n)
{
    const uint32_t capacity = n ? n : 1;
    if (capacity > chain->capacity) {
        free(chain->room);
        memset(chain, 0, sizeof *chain);
        chain->room = malloc(capacity * (sizeof(uint64_t) + 3 * sizeof(uint32_t)));
        if (!chain->room) return TEZGUMI_NO_MEMORY;
        chain->capacity = capacity;
    }
    chain->loads = (uint64_t *)chain->room;
    chain->bytes = (uint32_t *)(chain->loads + chain->capacity);
    chain->places = chain->bytes + chain->capacity;
    chain->new_places = chain->places + chain->capacity;
    return TEZGUMI_OK;
}

/* What gather is given, and what it learns first: how many elements each rank holds. */
typedef struct {
    MPI_Comm comm;
    const tezgumi_mpi_element *mine;
    int ranks;
    uint32_t n;
    int bytes[TEZGUMI_MPI_GATHERED_RANKS], starts[TEZGUMI_MPI_GATHERED_RANKS]; /* of the elements of each rank among all */
} counts;

/* The reason for which a rank has nothing to give, or TEZGUMI_OK. */
static int refusal(const tezgumi_mpi_element *mine, uint32_t count, const tezgumi_mpi_chain *chain)
{
    if (tezgumi_abi() != TEZGUMI_ABI) return TEZGUMI_MPI_LIBRARY;
    if (!chain || (count && !mine)) return tezgumi_mpi_broken(TEZGUMI_MPI_RULE_NULL);
    return count > TEZGUMI_MPI_GATHERED_ELEMENTS ? tezgumi_mpi_broken(TEZGUMI_MPI_RULE_ELEMENTS) : TEZGUMI_OK;
}

/* A refusal as a number below 0, the less the less its status is. */
static int told_of(int carried)
{
    return TEZGUMI_MPI_CARRIED * tezgumi_mpi_status_of(carried) - tezgumi_mpi_rule_of(carried);
}

/* Learns the number of elements of each rank, or the reason why a rank tells none: all ranks see the same numbers. */
static int learn_counts(counts *c, int told, tezgumi_mpi_report *report)
{
    int all[TEZGUMI_MPI_GATHERED_RANKS], r, least = 0;
    if (MPI_Allgather(&told, 1, MPI_INT, all, 1, MPI_INT, c->comm) != MPI_SUCCESS) return TEZGUMI_MPI_ERROR;
    c->n = 0;
    for (r = 0; r < c->ranks; r++) {
        if (all[r] < 0 && (least == 0 || all[r] / TEZGUMI_MPI_CARRIED < least / TEZGUMI_MPI_CARRIED)) {
            least = all[r];
            report->failed_rank = r;
        }
        if (least < 0) continue;
        c->starts[r] = (int)(c->n * sizeof *c->mine);
        c->bytes[r] = all[r] * (int)sizeof *c->mine;
        c->n += (uint32_t)all[r];
    }
    if (least < 0) return tezgumi_mpi_refusal(least / TEZGUMI_MPI_CARRIED, -least % TEZGUMI_MPI_CARRIED);
    return c->n <= TEZGUMI_MPI_GATHERED_ELEMENTS ? TEZGUMI_OK : tezgumi_mpi_broken(TEZGUMI_MPI_RULE_ELEMENTS);
}

/* Notes a refusal that every rank finds by itself. */
static int refuse(int status, uint32_t rank, uint32_t element, tezgumi_mpi_report *report)
{
    report->failed_rank = (int)rank;
    report->failed_at = element;
    return status;
}

/* Puts the elements of all ranks where they belong. n elements with n indices below n, none twice, are all there. */
static int sort_by_index(const counts *c, const tezgumi_mpi_element *all, tezgumi_mpi_chain *chain,
    tezgumi_mpi_report *report)
{
    uint32_t k, rank = 0;
    memset(chain->places, 0xff, c->n * sizeof *chain->places);
    for (k = 0; k < c->n; k++) {
        const uint32_t i = all[k].index;
        while ((size_t)c->starts[rank] + (size_t)c->bytes[rank] <= k * sizeof *all) rank++;
        if (i >= c->n || chain->places[i] != UINT32_MAX) return refuse(TEZGUMI_MPI_BAD_INDEX, rank, i, report);
        chain->loads[i] = all[k].load;
        chain->bytes[i] = all[k].bytes;
        chain->places[i] = chain->new_places[i] = rank;
    }
    chain->n = c->n;
    chain->ranks = (uint32_t)c->ranks;
    return TEZGUMI_OK;
}

/* Whether the sizes are within their limit, and the loads. */
static int keep_limits(const tezgumi_mpi_chain *chain, tezgumi_mpi_report *report)
{
    uint32_t i, heavy = UINT32_MAX;
    for (i = 0; i < chain->n; i++) {
        if (chain->bytes[i] > TEZGUMI_MPI_GATHERED_BYTES) return refuse(tezgumi_mpi_broken(TEZGUMI_MPI_RULE_BYTES), chain->places[i], i, report);
        if (chain->loads[i] > TEZGUMI_MPI_GATHERED_LOAD && heavy == UINT32_MAX) heavy = i;
    }
    if (heavy == UINT32_MAX) return TEZGUMI_OK;
    return refuse(tezgumi_mpi_refusal(TEZGUMI_BAD_LOAD, TEZGUMI_MPI_RULE_LOAD), chain->places[heavy], heavy, report);
}

/* Exchanges the elements themselves. */
static int learn_elements(const counts *c, uint32_t count, tezgumi_mpi_chain *chain, tezgumi_mpi_report *report)
{
    tezgumi_mpi_element *all = (tezgumi_mpi_element *)malloc(((size_t)c->n + 1) * sizeof *all);
    int status = all ? chain_room(chain, c->n) : TEZGUMI_NO_MEMORY;
    status = tezgumi_mpi_agree(c->comm, tezgumi_mpi_outcome_of(status, 0), 0, report);
    if (status == TEZGUMI_OK
        && MPI_Allgatherv(c->mine, (int)(count * sizeof *all), MPI_BYTE, all, c->bytes, c->starts, MPI_BYTE, c->comm)
            != MPI_SUCCESS)
        status = TEZGUMI_MPI_ERROR;
    if (status == TEZGUMI_OK) status = sort_by_index(c, all, chain, report);
    if (status == TEZGUMI_OK) status = keep_limits(chain, report);
    free(all);
    return status;
}

/* The whole of it, but for the report's time. */
static int gather(MPI_Comm comm, int refused, const tezgumi_mpi_element *mine, uint32_t count, tezgumi_mpi_chain *chain,
    tezgumi_mpi_report *report)
{
    counts c;
    int status, groups = 0;
    if (MPI_Comm_test_inter(comm, &groups) != MPI_SUCCESS || MPI_Comm_size(comm, &c.ranks) != MPI_SUCCESS)
        return TEZGUMI_MPI_ERROR;
    if (groups) return tezgumi_mpi_broken(TEZGUMI_MPI_RULE_GROUPS);
    if (c.ranks > (int)TEZGUMI_MPI_GATHERED_RANKS) return tezgumi_mpi_broken(TEZGUMI_MPI_RULE_RANKS);
    c.comm = comm;
    c.mine = mine;
    status = refused == TEZGUMI_OK ? refusal(mine, count, chain) : refused;
    status = learn_counts(&c, status == TEZGUMI_OK ? (int)count : told_of(status), report);
    return status == TEZGUMI_OK ? learn_elements(&c, count, chain, report) : status;
}

int tezgumi_mpi_gather_or(MPI_Comm comm, int refused, const tezgumi_mpi_element *mine, uint32_t count,
    tezgumi_mpi_chain *chain, tezgumi_mpi_report *report)
{
    const double begin = MPI_Wtime();
    int status;
    memset(report, 0, sizeof *report);
    report->failed_rank = -1;
    status = tezgumi_mpi_told(gather(comm, refused, mine, count, chain, report), report);
    if (status != TEZGUMI_OK && chain) chain->n = chain->ranks = 0;
    if (status == TEZGUMI_OK) report->gathered = chain->n;
    report->gather_seconds = MPI_Wtime() - begin;
    return status;
}

int tezgumi_mpi_gather(MPI_Comm comm, const tezgumi_mpi_element *mine, uint32_t count, tezgumi_mpi_chain *chain,
    tezgumi_mpi_report *report)
{
    tezgumi_mpi_report unread;
    return tezgumi_mpi_gather_or(comm, TEZGUMI_OK, mine, count, chain, report ? report : &unread);
}
