/* The merged chain: the runs of all parts, which every rank gathers and divides; and the check of what comes out, by sums over
 * all ranks. */
#include "internal.h"

static int runs_room(tezgumi_mpi_runs *r, size_t count)
{
    r->count = count;
    r->room = malloc((count + 1) * (sizeof *r->loads + sizeof *r->ends));
    if (!r->room) return TEZGUMI_NO_MEMORY;
    r->loads = (uint64_t *)r->room;
    r->ends = (uint32_t *)(r->loads + count);
    return TEZGUMI_OK;
}

/* Merges this rank's part. */
static int merge(const tezgumi_mpi_search *s, tezgumi_mpi_runs *own)
{
    const tezgumi_mpi_part *part = s->part;
    const tezgumi_mpi_windows *w = &s->windows;
    const uint64_t most = tezgumi_mpi_runs_of(w, part->first, part->first + part->count);
    size_t count = 0;
    int status = runs_room(own, part->count ? (size_t)most : 0);
    if (status != TEZGUMI_OK || part->count == 0) return status;
    status = tezgumi_part_merge(part->loads, part->count, part->first, w->lower, w->count, w->upper, w->count, own->loads,
        own->count, own->ends, own->count, &count);
    if (status == TEZGUMI_OK && count > own->count) return TEZGUMI_MPI_WRONG_PLAN;
    if (status == TEZGUMI_OK && count > INT_MAX) return TEZGUMI_NO_MEMORY; /* no int counts them, and so MPI does not */
    own->count = count;
    return tezgumi_mpi_inner(status);
}

/* Learns how many runs each rank has, or why one has none: all ranks see the same numbers. */
static int learn_counts(tezgumi_mpi_search *s, int status, size_t count, uint64_t *all)
{
    const int told = status == TEZGUMI_OK ? (int)count : status;
    uint32_t r, k;
    *all = 0;
    if (MPI_Allgather(&told, 1, MPI_INT, s->counts, 1, MPI_INT, s->comm) != MPI_SUCCESS) return TEZGUMI_MPI_ERROR;
    for (r = 0, status = TEZGUMI_OK; r < s->ranks; r++) {
        s->starts[r] = 0;
        if (s->counts[r] >= status) continue;
        status = s->counts[r];
        s->report->failed_rank = (int)r;
    }
    for (k = 0; k < s->parts && status == TEZGUMI_OK; k++) {
        r = s->order[k];
        if (*all + (uint64_t)s->counts[r] > INT_MAX) return TEZGUMI_NO_MEMORY;
        s->starts[r] = (int)*all;
        *all += (uint64_t)s->counts[r];
    }
    return status;
}

/* Gathers the runs of all ranks in the order of their parts. */
static int gather(tezgumi_mpi_search *s, const tezgumi_mpi_runs *own, size_t count, tezgumi_mpi_runs *all)
{
    const int mine = (int)own->count;
    const int status = tezgumi_mpi_agree(s->comm, tezgumi_mpi_outcome_of(runs_room(all, count), 0), 0, s->report);
    if (status != TEZGUMI_OK) return status;
    if (MPI_Allgatherv(own->loads, mine, MPI_UINT64_T, all->loads, s->counts, s->starts, MPI_UINT64_T, s->comm) != MPI_SUCCESS
        || MPI_Allgatherv(own->ends, mine, MPI_UINT32_T, all->ends, s->counts, s->starts, MPI_UINT32_T, s->comm) != MPI_SUCCESS)
        return TEZGUMI_MPI_ERROR;
    s->report->gathered += (uint32_t)count;
    return TEZGUMI_OK;
}

/* Puts the first element of each of these runs in its place. */
static void start_runs(const tezgumi_mpi_runs *all, uint32_t *places, size_t count)
{
    size_t k;
    for (k = 0; k < count; k++) places[k] = places[k] == 0 ? 0 : all->ends[places[k] - 1];
}

/* Divides the merged chain: the division of the chain. */
static int divide(tezgumi_mpi_search *s, const tezgumi_mpi_runs *all)
{
    const size_t places = (size_t)s->ranks + 1;
    const int status = tezgumi_mpi_inner(tezgumi_divide(all->loads, all->count, s->ranks, &s->bottleneck, s->layout->cuts, places,
        s->stops, places, &s->stops_count));
    if (status != TEZGUMI_OK) return status;
    start_runs(all, s->layout->cuts, places);
    start_runs(all, s->stops, s->stops_count);
    return TEZGUMI_OK;
}

/* Where the bounds have met, the ends of the two walks are the cuts and the stops. */
static void take_ends(tezgumi_mpi_search *s)
{
    const size_t blocks = s->ranks;
    s->bottleneck = s->high;
    s->layout->cuts[0] = s->stops[0] = 0;
    memcpy(s->layout->cuts + 1, s->windows.upper, blocks * sizeof *s->stops);
    memcpy(s->stops + 1, s->windows.lower, blocks * sizeof *s->stops);
    s->stops_count = s->bottleneck > 0 ? blocks + 1 : 0;
}

int tezgumi_mpi_gather_runs(tezgumi_mpi_search *s, tezgumi_mpi_runs *own, tezgumi_mpi_runs *all)
{
    double since = MPI_Wtime();
    uint64_t count = 0;
    int status = merge(s, own);
    status = learn_counts(s, status, own->count, &count);
    if (status == TEZGUMI_OK) status = gather(s, own, (size_t)count, all);
    s->report->gather_seconds += tezgumi_mpi_lap(&since);
    return status;
}

int tezgumi_mpi_divide_runs(tezgumi_mpi_search *s)
{
    tezgumi_mpi_runs own = {0, NULL, NULL, NULL}, all = {0, NULL, NULL, NULL};
    double since;
    int status;
    if (s->has_walked && s->low == s->high) {
        take_ends(s);
        return TEZGUMI_OK;
    }
    status = tezgumi_mpi_gather_runs(s, &own, &all);
    since = MPI_Wtime();
    if (status == TEZGUMI_OK)
        status = tezgumi_mpi_agree(s->comm, tezgumi_mpi_outcome_of(divide(s, &all), 0), 0, s->report);
    s->report->plan_seconds += tezgumi_mpi_lap(&since);
    free(own.room);
    free(all.room);
    return status;
}

/* A fingerprint of the division. */
static uint64_t print_of(const tezgumi_mpi_search *s)
{
    const uint32_t words[2] = {(uint32_t)s->bottleneck, (uint32_t)(s->bottleneck >> 32)};
    uint64_t print = tezgumi_mpi_fingerprint(TEZGUMI_MPI_FINGERPRINT, words, 2);
    print = tezgumi_mpi_fingerprint(print, s->layout->cuts, (size_t)s->ranks + 1);
    return tezgumi_mpi_fingerprint(print, s->stops, s->stops_count);
}

/* What this part has of each range of the division. */
static int weigh(tezgumi_mpi_search *s)
{
    const tezgumi_mpi_part *part = s->part;
    const size_t ranks = s->ranks;
    memset(s->block_loads, 0, 2 * ranks * sizeof *s->block_loads);
    if (part->count == 0) return TEZGUMI_OK;
    return tezgumi_mpi_inner(tezgumi_part_loads(part->loads, part->count, part->first, s->ranks, s->layout->cuts, ranks + 1,
        s->stops, s->stops_count, s->block_loads, ranks, s->fence_loads, ranks));
}

/* Checks the sums of all parts; the outcome's second part is the flaw that was found. */
static tezgumi_mpi_outcome judge(const tezgumi_mpi_search *s)
{
    const size_t ranks = s->ranks;
    const int status = tezgumi_check_division(s->layout->n, s->ranks, s->bottleneck, s->layout->cuts, ranks + 1, s->stops,
        s->stops_count, s->block_loads, ranks, s->fence_loads, ranks);
    if (status > TEZGUMI_OK) return tezgumi_mpi_outcome_of(TEZGUMI_MPI_WRONG_PLAN, (uint32_t)status);
    return tezgumi_mpi_outcome_of(tezgumi_mpi_inner(status), 0);
}

int tezgumi_mpi_check_division(tezgumi_mpi_search *s)
{
    double since = MPI_Wtime();
    int status = tezgumi_mpi_agree(s->comm, tezgumi_mpi_outcome_of(weigh(s), 0), print_of(s), s->report);
    if (status == TEZGUMI_OK
        && MPI_Allreduce(MPI_IN_PLACE, s->block_loads, 2 * (int)s->ranks, MPI_UINT64_T, MPI_SUM, s->comm) != MPI_SUCCESS)
        status = TEZGUMI_MPI_ERROR;
    if (status == TEZGUMI_OK) status = tezgumi_mpi_agree(s->comm, judge(s), 0, s->report);
    s->report->check_seconds += tezgumi_mpi_lap(&since);
    return status;
}
