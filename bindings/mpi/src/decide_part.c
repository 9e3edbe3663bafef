/* The decision on parts, which the ranks take together. */
#include "internal.h"

/* The reason for which a rank has no part in it, or TEZGUMI_OK. */
static int refusal(const tezgumi_mpi_search *s)
{
    const tezgumi_mpi_part *part = s->part;
    if (tezgumi_abi() != TEZGUMI_ABI) return TEZGUMI_MPI_LIBRARY;
    if (!s->layout || !part || (part->count > 0 && (!part->loads || !part->bytes))) return tezgumi_mpi_broken(TEZGUMI_MPI_RULE_NULL);
    if (s->ranks > (s->options->keep_order ? TEZGUMI_MPI_RANKS : TEZGUMI_MPI_NAMED_RANKS))
        return tezgumi_mpi_broken(TEZGUMI_MPI_RULE_RANKS);
    return TEZGUMI_OK;
}

/* Room for the lists with an entry for each rank. */
static int search_room(tezgumi_mpi_search *s)
{
    const size_t n = s->ranks;
    uint64_t *numbers = (uint64_t *)malloc(n * (sizeof *s->told + 2 * sizeof *numbers + 4 * sizeof(uint32_t) + 2 * sizeof(int)) + 4);
    s->room = numbers;
    if (!numbers) return TEZGUMI_NO_MEMORY;
    s->block_loads = numbers;
    s->fence_loads = numbers + n;
    s->told = (tezgumi_mpi_summary *)(numbers + 2 * n);
    s->order = (uint32_t *)(s->told + n);
    s->windows.lower = s->order + n;
    s->windows.upper = s->windows.lower + n;
    s->stops = s->windows.upper + n;
    s->counts = (int *)(s->stops + n + 1);
    s->starts = s->counts + n;
    return TEZGUMI_OK;
}

/* Finds windows: by totals alone, if the elements in them are few, and otherwise by walks over all parts. */
static int find_windows(tezgumi_mpi_search *s)
{
    const tezgumi_mpi_part *part = s->part;
    uint64_t runs;
    if (tezgumi_part_bounds(s->total, s->greatest, s->ranks, &s->low, &s->high) != TEZGUMI_OK) return TEZGUMI_MPI_WRONG_PLAN;
    tezgumi_mpi_windows_by_totals(s);
    if (s->report->retries > 0) return TEZGUMI_OK;
    runs = part->count ? tezgumi_mpi_runs_of(&s->windows, part->first, part->first + part->count) : 0;
    if (MPI_Allreduce(MPI_IN_PLACE, &runs, 1, MPI_UINT64_T, MPI_SUM, s->comm) != MPI_SUCCESS) return TEZGUMI_MPI_ERROR;
    return runs <= tezgumi_mpi_enough(s) ? TEZGUMI_OK : tezgumi_mpi_windows_by_walks(s);
}

/* One search for the division, with its check. */
static int search_once(tezgumi_mpi_search *s)
{
    double since = MPI_Wtime();
    int status = find_windows(s);
    s->report->walk_seconds += tezgumi_mpi_lap(&since);
    if (status == TEZGUMI_OK) status = tezgumi_mpi_divide_runs(s);
    if (status != TEZGUMI_OK || s->options->skip_check) return status;
    return tezgumi_mpi_check_division(s);
}

/* Finds the division. Where the check refuses it, some window was wrong: then by totals alone, however many elements that are. */
static int search(tezgumi_mpi_search *s)
{
    const int status = search_once(s);
    if (status != TEZGUMI_MPI_WRONG_PLAN) return status;
    s->report->retries = 1;
    return search_once(s);
}

/* Whether the ranks hold the chain in their own order. */
static int is_in_order(const tezgumi_mpi_search *s)
{
    uint32_t k;
    for (k = 1; k < s->parts; k++)
        if (s->order[k] < s->order[k - 1]) return 0;
    return 1;
}

/* Whether the present ranges are good enough, if this is the least possible greatest load. */
static int stays(const tezgumi_mpi_search *s, uint64_t least)
{
    if (s->options->keep_order && !is_in_order(s)) return 0;
    if (s->options->refine) return s->heaviest <= tezgumi_mpi_limit(s->options, least);
    return tezgumi_mpi_is_enough(s->heaviest, least, s->options->tolerance);
}

/* The present ranges as blocks: in the order of the chain, with the ranks that hold nothing behind the others, if they are not
 * between them anyway. */
static void keep_ranges(tezgumi_mpi_search *s)
{
    tezgumi_mpi_layout *l = s->layout;
    const int in_order = is_in_order(s);
    uint32_t b, r, k = s->parts;
    for (b = 0; b < s->parts; b++) l->names[b] = s->order[b];
    for (r = 0; r < s->ranks; r++) {
        if (in_order) l->names[r] = r;
        else if (l->counts[r] == 0) l->names[k++] = r;
    }
    l->cuts[0] = 0;
    for (b = 0; b < s->ranks; b++) l->cuts[b + 1] = l->cuts[b] + l->counts[l->names[b]];
}

/* The elements that leave their rank. */
static uint32_t count_moves(const tezgumi_mpi_layout *l)
{
    uint32_t b, moves = l->n;
    for (b = 0; b < l->ranks; b++) {
        const uint32_t first = l->firsts[l->names[b]], last = first + l->counts[l->names[b]];
        const uint32_t begin = l->cuts[b] > first ? l->cuts[b] : first, end = l->cuts[b + 1] < last ? l->cuts[b + 1] : last;
        if (begin < end) moves -= end - begin;
    }
    return moves;
}

/* Compares the decision with that of the other ranks. */
static int compare(tezgumi_mpi_search *s)
{
    double since = MPI_Wtime();
    uint64_t print = tezgumi_mpi_fingerprint(TEZGUMI_MPI_FINGERPRINT, s->layout->cuts, (size_t)s->ranks + 1);
    int status;
    print = tezgumi_mpi_fingerprint(print, s->layout->names, s->ranks);
    status = tezgumi_mpi_agree(s->comm, tezgumi_mpi_outcome_of(TEZGUMI_OK, 0), print, s->report);
    s->report->agree_seconds = tezgumi_mpi_lap(&since);
    return status;
}

/* Cuts and names where something moves: those of the least division, or of cuts near the present ones. */
static int settle(tezgumi_mpi_search *s)
{
    const int status = s->options->refine && is_in_order(s) ? tezgumi_mpi_keep_cuts(s) : TEZGUMI_OK;
    return status == TEZGUMI_OK ? tezgumi_mpi_name_blocks(s) : status;
}

/* Decides. What is no more than the lower bound is enough, before anything is searched for. */
static int decide(tezgumi_mpi_search *s)
{
    tezgumi_mpi_report *report = s->report;
    double since = MPI_Wtime();
    uint64_t low, high;
    int status = tezgumi_mpi_learn_parts(s);
    report->gather_seconds = tezgumi_mpi_lap(&since);
    if (status != TEZGUMI_OK) return status;
    if (tezgumi_part_bounds(s->total, s->greatest, s->ranks, &low, &high) != TEZGUMI_OK) return TEZGUMI_MPI_WRONG_PLAN;
    s->bottleneck = low;
    if (!stays(s, low)) status = search(s);
    if (status != TEZGUMI_OK) return status;
    report->max_load_before = s->heaviest;
    report->average_load = (double)s->total / (double)s->ranks;
    report->max_load_after = stays(s, s->bottleneck) ? s->heaviest : s->bottleneck;
    if (stays(s, s->bottleneck)) keep_ranges(s);
    else status = settle(s);
    if (status == TEZGUMI_OK) status = compare(s);
    if (status == TEZGUMI_OK) report->elements_moved = count_moves(s->layout);
    return status;
}

int tezgumi_mpi_decide_part_or(MPI_Comm comm, int refused, const tezgumi_mpi_part *part, const tezgumi_mpi_options *options,
    tezgumi_mpi_layout *layout, tezgumi_mpi_report *report)
{
    const tezgumi_mpi_options defaults = {0, 0, 0, 0, 0};
    tezgumi_mpi_search s;
    int rank, ranks, groups = 0, status;
    memset(&s, 0, sizeof s);
    memset(report, 0, sizeof *report);
    report->failed_rank = -1;
    if (MPI_Comm_test_inter(comm, &groups) != MPI_SUCCESS || MPI_Comm_size(comm, &ranks) != MPI_SUCCESS
        || MPI_Comm_rank(comm, &rank) != MPI_SUCCESS)
        return TEZGUMI_MPI_ERROR;
    if (groups) return tezgumi_mpi_told(tezgumi_mpi_broken(TEZGUMI_MPI_RULE_GROUPS), report);
    s.comm = comm;
    s.rank = (uint32_t)rank;
    s.ranks = (uint32_t)ranks;
    s.part = part;
    s.options = options ? options : &defaults;
    s.layout = layout;
    s.report = report;
    status = refused == TEZGUMI_OK ? refusal(&s) : refused;
    if (status == TEZGUMI_OK) status = tezgumi_mpi_layout_room(layout, s.ranks);
    if (status == TEZGUMI_OK) status = search_room(&s);
    status = tezgumi_mpi_agree(comm, tezgumi_mpi_outcome_of(status, 0), 0, report);
    if (status == TEZGUMI_OK) status = tezgumi_mpi_told(decide(&s), report);
    free(s.room);
    if (status != TEZGUMI_OK && layout) {
        layout->n = layout->ranks = 0;
        layout->move = 0;
    }
    return status;
}

int tezgumi_mpi_decide_part(MPI_Comm comm, const tezgumi_mpi_part *part, const tezgumi_mpi_options *options,
    tezgumi_mpi_layout *layout, tezgumi_mpi_report *report)
{
    tezgumi_mpi_report unread;
    return tezgumi_mpi_decide_part_or(comm, TEZGUMI_OK, part, options, layout, report ? report : &unread);
}
