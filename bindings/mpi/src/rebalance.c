/* Decide and move in one call: by parts where each rank's elements are consecutive, and otherwise by gathering all. A move by parts
 * that a callback has ended goes on first. */
#include "internal.h"

/* This rank's elements as a part. */
typedef struct {
    tezgumi_mpi_part part;
    int is_scattered; /* they are not consecutive */
    int has_none;     /* there was no room for its lists */
    void *room;
} own_part;

/* The least and the greatest index of some elements. */
static void find_range(const tezgumi_mpi_element *mine, uint32_t count, uint32_t *least, uint32_t *greatest)
{
    uint32_t k;
    *least = *greatest = mine[0].index;
    for (k = 1; k < count; k++) {
        if (mine[k].index < *least) *least = mine[k].index;
        if (mine[k].index > *greatest) *greatest = mine[k].index;
    }
}

/* Puts the elements of a range where they belong. 0 where an index comes twice; marks are all 0 and get a bit for each. */
static int place_all(const tezgumi_mpi_element *mine, uint32_t count, uint32_t first, uint64_t *loads, uint32_t *bytes,
    unsigned char *marks)
{
    uint32_t k;
    for (k = 0; k < count; k++) {
        const uint32_t i = mine[k].index - first;
        if (marks[i / 8] & 1 << i % 8) return 0;
        marks[i / 8] |= (unsigned char)(1 << i % 8);
        loads[i] = mine[k].load;
        bytes[i] = mine[k].bytes;
    }
    return 1;
}

/* Makes a part of elements, if they are consecutive. */
static void make_part(const tezgumi_mpi_element *mine, uint32_t count, own_part *own)
{
    const size_t words = count, marks = words / 8 + 1;
    uint32_t least, greatest;
    uint64_t *loads;
    uint32_t *bytes;
    own->part.count = count;
    if (count == 0 || !mine) return;
    find_range(mine, count, &least, &greatest);
    own->is_scattered = greatest - least != count - 1;
    if (own->is_scattered) return;
    own->room = malloc(words * (sizeof *loads + sizeof *bytes) + marks);
    own->has_none = !own->room;
    if (own->has_none) return;
    loads = (uint64_t *)own->room;
    bytes = (uint32_t *)(loads + words);
    memset(bytes + words, 0, marks);
    own->is_scattered = !place_all(mine, count, least, loads, bytes, (unsigned char *)(bytes + words));
    own->part.loads = loads;
    own->part.bytes = bytes;
    own->part.first = least;
}

/* What tezgumi_mpi_rebalance is asked for. */
typedef struct {
    MPI_Comm comm;
    const tezgumi_mpi_element *mine;
    uint32_t count;
    const tezgumi_mpi_callbacks *callbacks;
    const tezgumi_mpi_options *options;
    tezgumi_mpi_chain *chain;
    tezgumi_mpi_layout *layout;
    tezgumi_mpi_report *report;
} request;

/* Whether the callbacks are there, also where nothing turns out to move. */
static int refusal(const request *r)
{
    return r->callbacks && r->callbacks->pack && r->callbacks->unpack ? TEZGUMI_OK : tezgumi_mpi_broken(TEZGUMI_MPI_RULE_CALLBACKS);
}

static int by_gathering(const request *r)
{
    tezgumi_mpi_chain own, *chain = r->chain ? r->chain : &own;
    int status;
    memset(&own, 0, sizeof own);
    status = tezgumi_mpi_gather_or(r->comm, refusal(r), r->mine, r->count, chain, r->report);
    if (status == TEZGUMI_OK) status = tezgumi_mpi_decide(r->comm, chain, r->options, r->report);
    if (status == TEZGUMI_OK && r->report->elements_moved > 0) /* all ranks have decided the same */
        status = tezgumi_mpi_move(r->comm, chain, r->callbacks, r->options, r->report);
    tezgumi_mpi_chain_free(&own);
    return status;
}

static int by_parts(const request *r, const own_part *own)
{
    tezgumi_mpi_layout unread, *layout = r->layout ? r->layout : &unread;
    int status = refusal(r);
    memset(&unread, 0, sizeof unread);
    if (status == TEZGUMI_OK && own->has_none) status = TEZGUMI_NO_MEMORY;
    status = tezgumi_mpi_decide_part_or(r->comm, status, &own->part, r->options, layout, r->report);
    if (status == TEZGUMI_OK && r->report->elements_moved > 0)
        status = tezgumi_mpi_move_part(r->comm, &own->part, layout, r->callbacks, r->options, r->report);
    tezgumi_mpi_layout_free(&unread);
    return status;
}

/* Goes on with the move that the layout has under way. */
static int by_rest(const request *r, uint32_t ranks)
{
    tezgumi_mpi_outcome outcome = {TEZGUMI_OK, 0};
    own_part rest;
    int rank, status;
    memset(&rest, 0, sizeof rest);
    if (MPI_Comm_rank(r->comm, &rank) != MPI_SUCCESS) return TEZGUMI_MPI_ERROR;
    outcome.status = refusal(r);
    if (outcome.status == TEZGUMI_OK && !r->mine && r->count > 0) outcome.status = tezgumi_mpi_broken(TEZGUMI_MPI_RULE_NULL);
    if (outcome.status == TEZGUMI_OK && (r->chain || !tezgumi_mpi_is_under_way(r->layout, ranks)))
        outcome.status = tezgumi_mpi_broken(TEZGUMI_MPI_RULE_LAYOUT);
    if (outcome.status == TEZGUMI_OK)
        outcome = tezgumi_mpi_rest_of(r->layout, (uint32_t)rank, r->mine, r->count, &rest.part, &rest.room);
    status = tezgumi_mpi_agree(r->comm, outcome, 0, r->report);
    if (status == TEZGUMI_OK) status = tezgumi_mpi_move_part(r->comm, &rest.part, r->layout, r->callbacks, r->options, r->report);
    free(rest.room);
    return status;
}

/* What all ranks add up before they take one way together. */
enum { UNDER_WAY, NEED_CHAIN, SCATTERED, COUNT, SUMS };

static int is_under_way(const request *r)
{
    return r->layout && r->layout->move != 0;
}

static int needs_chain(const request *r)
{
    return r->chain || (r->options && r->options->refine && !r->options->keep_order);
}

static int rebalance(const request *r, const own_part *own)
{
    const int refused = refusal(r), scattered = own->is_scattered ? TEZGUMI_MPI_SCATTERED : TEZGUMI_OK;
    uint64_t sums[SUMS];
    int ranks, is_small, status, groups = 0;
    if (MPI_Comm_test_inter(r->comm, &groups) != MPI_SUCCESS) return TEZGUMI_MPI_ERROR;
    if (groups) return by_gathering(r);
    sums[UNDER_WAY] = is_under_way(r);
    sums[NEED_CHAIN] = needs_chain(r);
    sums[SCATTERED] = own->is_scattered != 0;
    sums[COUNT] = r->count;
    if (MPI_Comm_size(r->comm, &ranks) != MPI_SUCCESS
        || MPI_Allreduce(MPI_IN_PLACE, sums, SUMS, MPI_UINT64_T, MPI_SUM, r->comm) != MPI_SUCCESS)
        return TEZGUMI_MPI_ERROR;
    if (sums[UNDER_WAY] > 0) return by_rest(r, (uint32_t)ranks);
    is_small = sums[COUNT] <= TEZGUMI_MPI_GATHERED_ELEMENTS && ranks <= (int)TEZGUMI_MPI_GATHERED_RANKS;
    if (sums[NEED_CHAIN] == 0 && sums[SCATTERED] == 0) {
        status = by_parts(r, own);
        if (status != TEZGUMI_MPI_BAD_INDEX || !is_small) return status;
    }
    if (r->layout) r->layout->n = r->layout->ranks = 0;
    if (sums[NEED_CHAIN] > 0 || is_small) return by_gathering(r);
    return tezgumi_mpi_agree(r->comm, tezgumi_mpi_outcome_of(refused ? refused : scattered, 0), 0, r->report);
}

int tezgumi_mpi_rebalance(MPI_Comm comm, const tezgumi_mpi_element *mine, uint32_t count,
    const tezgumi_mpi_callbacks *callbacks, const tezgumi_mpi_options *options, tezgumi_mpi_chain *chain,
    tezgumi_mpi_layout *layout, tezgumi_mpi_report *report)
{
    tezgumi_mpi_report unread;
    const request r = {comm, mine, count, callbacks, options, chain, layout, report ? report : &unread};
    own_part own;
    int status;
    memset(r.report, 0, sizeof *r.report);
    r.report->failed_rank = -1;
    memset(&own, 0, sizeof own);
    if (!needs_chain(&r) && !is_under_way(&r)) make_part(mine, count, &own);
    status = rebalance(&r, &own);
    free(own.room);
    return status;
}
