/* Windows of elements of which each begins a run of the merged chain: all elements that begin a block of the greedy divisions
 * within the limits low - 1 .. high. Between them elements are merged, and the division of the merged chain is that of the
 * chain (crates/merged_chains). Where a window is wrong, the check refuses a division that is not least; it does not see that another
 * least division came out. */
#include "internal.h"

enum {
    LIMITS = TEZGUMI_PART_LIMITS,
    HEAD = 2,          /* words of a pass's token before the states of the walks */
    USUAL_PASSES = 2,
    MOST_PASSES = 16   /* each divides the distance of the bounds by 65, so that 11 make them meet */
};

/* Puts the next element into the last window, or into a new one. */
static void add(tezgumi_mpi_windows *w, uint32_t element, uint32_t most)
{
    if (w->count > 0 && (element == w->upper[w->count - 1] + 1 || w->count == most)) {
        w->upper[w->count - 1] = element;
        return;
    }
    w->lower[w->count] = w->upper[w->count] = element;
    w->count++;
}

/* A block that cannot take the next element within low - 1 has low - greatest at least, and none has more than high. So an
 * element that begins a block behind k others has k * (low - greatest) to k * high before it, for some k from 1 on. */
void tezgumi_mpi_windows_by_totals(tezgumi_mpi_search *s)
{
    const tezgumi_mpi_part *part = s->part;
    const uint64_t fewest = s->low > s->greatest ? s->low - s->greatest : 0;
    const uint64_t high = s->high < s->total ? s->high : s->total;
    uint64_t before = s->before, blocks, least, most;
    uint32_t i;
    s->windows.count = 0;
    s->has_walked = 0;
    if (high == 0) return;
    blocks = before == 0 ? 1 : (before - 1) / high + 1;
    least = blocks * fewest;
    most = blocks * high;
    for (i = 0; i < part->count; i++) {
        while (before > most) {
            least += fewest;
            most += high;
        }
        if (before >= least) add(&s->windows, part->first + i, s->ranks);
        before += part->loads[i];
    }
}

uint64_t tezgumi_mpi_runs_of(const tezgumi_mpi_windows *windows, uint32_t first, uint32_t last)
{
    uint64_t runs = first < last, next = (uint64_t)first + 1; /* the last run ends at last, and others before elements */
    uint32_t k;
    for (k = 0; k < windows->count && next < last; k++) {
        const uint64_t end = windows->upper[k] < last - 1 ? windows->upper[k] : last - 1;
        const uint64_t begin = windows->lower[k] > next ? windows->lower[k] : next;
        if (begin > end) continue;
        runs += end - begin + 1;
        next = end + 1;
    }
    return runs;
}

/* The failure of the least status on the way of a token, and its rank, which all ranks learn with the token. */
static void note(uint64_t *token, int status, uint32_t rank)
{
    const uint64_t below = (uint64_t)-(int64_t)status;
    if (status == TEZGUMI_OK || below <= token[0]) return;
    token[0] = below;
    token[1] = rank;
}

static int status_of(const uint64_t *token, tezgumi_mpi_report *report)
{
    if (token[0] == 0) return TEZGUMI_OK;
    report->failed_rank = (int)token[1];
    report->failed_at = 0;
    return -(int)token[0];
}

/* This part's share of a pass: the states of the walks behind it. */
static void walk_on(const tezgumi_mpi_search *s, const uint64_t *limits, size_t count, uint64_t *token)
{
    uint64_t *const filled = token + HEAD + count;
    uint32_t closed[LIMITS];
    size_t i;
    int status;
    for (i = 0; i < count; i++) closed[i] = (uint32_t)token[HEAD + i];
    status = tezgumi_part_walk(s->part->loads, s->part->count, s->ranks, limits, count, closed, count, filled, count);
    for (i = 0; i < count; i++) token[HEAD + i] = closed[i];
    note(token, tezgumi_mpi_inner(status), s->rank);
}

/* One pass: tries limits between the bounds and narrows these. The token goes from part to part, and from the last to all. */
static int pass(tezgumi_mpi_search *s, MPI_Comm comm)
{
    uint64_t limits[LIMITS], token[HEAD + 2 * LIMITS] = {0};
    uint32_t closed[LIMITS];
    size_t count = 0, i;
    int words, status = tezgumi_part_limits(s->low, s->high, limits, LIMITS, &count);
    if (status != TEZGUMI_OK) return TEZGUMI_MPI_WRONG_PLAN;
    words = HEAD + 2 * (int)count;
    if (s->part->count > 0) {
        if (MPI_Recv(token, words, MPI_UINT64_T, s->previous, 0, comm, MPI_STATUS_IGNORE) != MPI_SUCCESS) return TEZGUMI_MPI_ERROR;
        walk_on(s, limits, count, token);
        if (MPI_Send(token, words, MPI_UINT64_T, s->next, 0, comm) != MPI_SUCCESS) return TEZGUMI_MPI_ERROR;
    }
    if (MPI_Bcast(token, words, MPI_UINT64_T, s->last, comm) != MPI_SUCCESS) return TEZGUMI_MPI_ERROR;
    status = status_of(token, s->report);
    if (status != TEZGUMI_OK) return status;
    s->report->passes++;
    for (i = 0; i < count; i++) closed[i] = (uint32_t)token[HEAD + i];
    return tezgumi_mpi_inner(tezgumi_part_narrow(s->ranks, limits, count, closed, count, &s->low, &s->high));
}

/* Passes until the bounds meet, so many at most. */
static int narrow(tezgumi_mpi_search *s, MPI_Comm comm, uint32_t most)
{
    int status = TEZGUMI_OK;
    for (; most > 0 && s->low < s->high && status == TEZGUMI_OK; most--) status = pass(s, comm);
    return status;
}

/* A walk within a limit that goes over all parts: where the blocks end in this one. The last part's rank adds the ends of those
 * that have not been closed. Where this rank fails, the others go on, and learn of it afterwards. */
static int find_ends(tezgumi_mpi_search *s, MPI_Comm comm, uint64_t limit, uint32_t *ends)
{
    const tezgumi_mpi_part *part = s->part;
    uint64_t token[2] = {0}; /* the blocks that are closed, and the load of the open one */
    uint32_t closed, before;
    size_t count = 0;
    int status;
    if (part->count == 0) return TEZGUMI_OK;
    if (MPI_Recv(token, 2, MPI_UINT64_T, s->previous, 0, comm, MPI_STATUS_IGNORE) != MPI_SUCCESS) return TEZGUMI_MPI_ERROR;
    closed = before = (uint32_t)token[0];
    status = tezgumi_mpi_inner(tezgumi_part_ends(part->loads, part->count, part->first, s->ranks, limit, &closed, &token[1],
        s->stops, s->ranks, &count));
    if (count > s->ranks - before || closed > s->ranks) status = TEZGUMI_MPI_WRONG_PLAN;
    token[0] = closed;
    if (MPI_Send(token, 2, MPI_UINT64_T, s->next, 0, comm) != MPI_SUCCESS) return TEZGUMI_MPI_ERROR;
    if (status != TEZGUMI_OK) return status;
    memcpy(ends + before, s->stops, count * sizeof *ends);
    if ((int)s->rank == s->last)
        for (; closed < s->ranks; closed++) ends[closed] = s->layout->n;
    return TEZGUMI_OK;
}

/* The windows from the ends within one below low to those within high. Each rank knows some ends, and 0 for all others. */
static int find_windows(tezgumi_mpi_search *s, MPI_Comm comm)
{
    tezgumi_mpi_windows *w = &s->windows;
    int status, other;
    w->count = s->ranks;
    memset(w->lower, 0, 2 * (size_t)s->ranks * sizeof *w->lower);
    status = find_ends(s, comm, s->low > 0 ? s->low - 1 : 0, w->lower);
    other = find_ends(s, comm, s->high, w->upper);
    status = tezgumi_mpi_agree(comm, tezgumi_mpi_outcome_of(status < other ? status : other, 0), 0, s->report);
    if (status != TEZGUMI_OK) return status;
    if (MPI_Allreduce(MPI_IN_PLACE, w->lower, 2 * (int)s->ranks, MPI_UINT32_T, MPI_MAX, comm) != MPI_SUCCESS)
        return TEZGUMI_MPI_ERROR;
    return TEZGUMI_OK;
}

/* The same in a communicator of its own, whose messages meet no others. */
static int walk(tezgumi_mpi_search *s, MPI_Comm comm)
{
    int status = narrow(s, comm, USUAL_PASSES);
    if (status == TEZGUMI_OK) status = find_windows(s, comm);
    if (status != TEZGUMI_OK || tezgumi_mpi_runs_of(&s->windows, 0, s->layout->n) <= tezgumi_mpi_enough(s)) return status;
    status = narrow(s, comm, MOST_PASSES);
    return status == TEZGUMI_OK ? find_windows(s, comm) : status;
}

int tezgumi_mpi_windows_by_walks(tezgumi_mpi_search *s)
{
    MPI_Comm own;
    int status;
    if (MPI_Comm_dup(s->comm, &own) != MPI_SUCCESS) return TEZGUMI_MPI_ERROR;
    s->has_walked = 1;
    status = walk(s, own);
    MPI_Comm_free(&own);
    return status;
}
