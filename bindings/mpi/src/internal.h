/* What the files of this library share. Not installed. */
#ifndef TEZGUMI_MPI_INTERNAL_H
#define TEZGUMI_MPI_INTERNAL_H

#include "tezgumi_mpi.h"
#include <limits.h>
#include <tezgumi_parts.h>

/* A refusal of the input, by the rule that was broken: inside the library a status carries it, and tezgumi_mpi_told takes it off. */
enum { TEZGUMI_MPI_CARRIED = 32 };
static inline int tezgumi_mpi_refusal(int status, int rule) { return status - TEZGUMI_MPI_CARRIED * rule; }
static inline int tezgumi_mpi_broken(int rule) { return tezgumi_mpi_refusal(TEZGUMI_BAD_INPUT, rule); }
static inline int tezgumi_mpi_status_of(int carried) { return -(-carried % TEZGUMI_MPI_CARRIED); }
static inline int tezgumi_mpi_rule_of(int carried) { return -carried / TEZGUMI_MPI_CARRIED; }

/* The status alone. Where it carries a rule, the report is told. */
static inline int tezgumi_mpi_told(int carried, tezgumi_mpi_report *report)
{
    if (tezgumi_mpi_rule_of(carried)) report->failed_rule = tezgumi_mpi_rule_of(carried);
    return tezgumi_mpi_status_of(carried);
}

/* How one rank fared. */
typedef struct {
    int status; /* which may carry a rule */
    uint32_t at; /* what failed_at of the report tells of it */
} tezgumi_mpi_outcome;

static inline tezgumi_mpi_outcome tezgumi_mpi_outcome_of(int status, uint32_t at)
{
    tezgumi_mpi_outcome outcome;
    outcome.status = status;
    outcome.at = at;
    return outcome;
}

/* A fingerprint of lists of words, to compare those of several ranks. Begin with this and add list by list. */
#define TEZGUMI_MPI_FINGERPRINT UINT64_C(14695981039346656037)
uint64_t tezgumi_mpi_fingerprint(uint64_t before, const uint32_t *words, size_t count);

/* Makes the outcomes of all ranks one status, which all return, and tells the report whose it is. If all are well and the
 * fingerprints differ, it is TEZGUMI_MPI_DISAGREE. One Allreduce. */
int tezgumi_mpi_agree(MPI_Comm comm, tezgumi_mpi_outcome mine, uint64_t fingerprint, tezgumi_mpi_report *report);

/* How many bytes an element takes in a buffer, so that the next one is aligned for every type. */
static inline size_t tezgumi_mpi_padded(uint32_t bytes)
{
    return ((size_t)bytes + 15) / 16 * 16;
}

/* Whether an element does not fit any more beside so many bytes: one that is greater than the room goes alone. */
static inline int tezgumi_mpi_is_full(size_t used, size_t bytes, size_t room)
{
    return used > 0 && used + bytes > room;
}

/* The room of an exchange by the options, which may be null. */
size_t tezgumi_mpi_room_of(const tezgumi_mpi_options *options);

/* Whether a greatest load is good enough, where this is the least possible one. */
int tezgumi_mpi_is_enough(uint64_t load, uint64_t least, double tolerance);

/* The seconds since a time, which becomes now. */
static inline double tezgumi_mpi_lap(double *since)
{
    const double before = *since;
    *since = MPI_Wtime();
    return *since - before;
}

/* Whether all is there and the chain, with no more elements than there is room for, was gathered from as many ranks. */
int tezgumi_mpi_fits(MPI_Comm comm, const tezgumi_mpi_chain *chain);

/* tezgumi_mpi_gather, on a rank that has found a reason to refuse already, or TEZGUMI_OK. */
int tezgumi_mpi_gather_or(MPI_Comm comm, int refused, const tezgumi_mpi_element *mine, uint32_t count,
    tezgumi_mpi_chain *chain, tezgumi_mpi_report *report);

/* The elements that move, in rounds, one for each exchange. The same on all ranks but for the bytes. */
typedef struct {
    uint32_t rounds;
    uint32_t *order;            /* the elements that move, by round and then by index */
    uint32_t *starts;           /* rounds + 1: where each round begins in the order */
    size_t out_bytes, in_bytes; /* that this rank sends and receives in its greatest round */
    void *memory;               /* to be freed */
} tezgumi_mpi_schedule;

/* Deals the moves of a chain out to rounds: in each, every rank sends at most room bytes and receives at most room bytes, or
 * a single element. TEZGUMI_NO_MEMORY where malloc refused. */
int tezgumi_mpi_schedule_of(
    const tezgumi_mpi_chain *chain, int rank, size_t room, tezgumi_mpi_schedule *schedule);

/* ---- Parts ---- */

/* What each rank tells all others of its part. */
typedef struct {
    uint64_t first, count;
    uint64_t load;     /* of all its elements; UINT64_MAX where 64 bits do not hold it */
    uint64_t greatest; /* the greatest load of one, */
    uint64_t bytes;    /* the size of all, */
    uint64_t largest;  /* and of the largest */
    uint64_t options;  /* a fingerprint of its options; even where they are out of order */
} tezgumi_mpi_summary;

/* Windows: each element in one of them begins a run of the merged chain. Both lists rise. */
typedef struct {
    uint32_t count;  /* as many as ranks at most */
    uint32_t *lower; /* the first element of each */
    uint32_t *upper; /* and the last one */
} tezgumi_mpi_windows;

/* A decision on parts under way. Lists have an entry for each rank, if they do not say otherwise. */
typedef struct {
    MPI_Comm comm;
    uint32_t rank, ranks;
    const tezgumi_mpi_part *part;
    const tezgumi_mpi_options *options;
    tezgumi_mpi_layout *layout;
    tezgumi_mpi_report *report;
    tezgumi_mpi_summary *told;        /* by rank */
    uint32_t *order;                  /* the ranks that hold elements, in the order of their parts, */
    uint32_t parts;                   /* as many as these */
    int previous, next, last;         /* the ranks whose parts are before and behind this one, and that of the last part */
    uint64_t total, greatest;         /* load of all elements, and the greatest load of one */
    uint64_t before;                  /* load of all elements before this part */
    uint64_t heaviest;                /* load of the heaviest rank */
    uint64_t low, high;               /* the bounds of the bottleneck */
    int has_walked;                   /* whether the windows are those of walks within these bounds */
    tezgumi_mpi_windows windows;
    uint64_t bottleneck;
    uint32_t *stops;                  /* ranks + 1 */
    size_t stops_count;
    uint64_t *block_loads, *fence_loads; /* one behind the other */
    int *counts, *starts;             /* of what the ranks gather */
    void *room;                       /* that of the lists */
} tezgumi_mpi_search;

/* Runs of elements, in order: their loads, and the element behind the last of each. */
typedef struct {
    size_t count;
    uint64_t *loads;
    uint32_t *ends;
    void *room; /* to be freed */
} tezgumi_mpi_runs;

/* Room for a layout on so many ranks, from the last time or anew. TEZGUMI_NO_MEMORY where malloc refused. */
int tezgumi_mpi_layout_room(tezgumi_mpi_layout *layout, uint32_t ranks);

/* Consecutive elements that go from one rank to another. */
typedef struct {
    uint32_t peer;
    uint32_t next, end; /* those that are still to go */
} tezgumi_mpi_piece;

/* What leaves a rank, or what comes to it. */
typedef struct {
    uint32_t count;          /* pieces, fewer than ranks */
    tezgumi_mpi_piece *list; /* in order of index */
    uint64_t left;           /* elements that are still to go */
} tezgumi_mpi_pieces;

/* Whether the cuts divide the elements, and each name is another rank; marks, one for each rank, are written meanwhile. */
int tezgumi_mpi_is_decision(const tezgumi_mpi_layout *layout, uint32_t *marks);

/* Finds what is still to leave a rank, and to come to it, by a decision. The lists have room for a piece of each rank. */
void tezgumi_mpi_find_pieces(
    const tezgumi_mpi_layout *layout, uint32_t rank, tezgumi_mpi_pieces *out, tezgumi_mpi_pieces *in);

/* A fingerprint of who sends what to whom; never 0. */
uint64_t tezgumi_mpi_print_of_move(const tezgumi_mpi_layout *layout);

/* Everything is where it belongs: the layout follows. */
void tezgumi_mpi_settle(tezgumi_mpi_layout *layout);

/* tezgumi_mpi_decide_part, on a rank that has found a reason to refuse already, or TEZGUMI_OK. */
int tezgumi_mpi_decide_part_or(MPI_Comm comm, int refused, const tezgumi_mpi_part *part, const tezgumi_mpi_options *options,
    tezgumi_mpi_layout *layout, tezgumi_mpi_report *report);

/* Whether the layout is of so many ranks, and has a move under way by the same cuts and names. layout may be null. */
int tezgumi_mpi_is_under_way(const tezgumi_mpi_layout *layout, uint32_t ranks);

/* Makes the part that a rank held before the move under way of elements that it holds now, for tezgumi_mpi_move_part to go on: those
 * that have gone have 0 bytes. TEZGUMI_MPI_BAD_INDEX, and an index, where these are not what it holds by the layout;
 * TEZGUMI_NO_MEMORY. The room is to be freed. */
tezgumi_mpi_outcome tezgumi_mpi_rest_of(const tezgumi_mpi_layout *layout, uint32_t rank, const tezgumi_mpi_element *mine,
    uint32_t count, tezgumi_mpi_part *part, void **room);

static inline uint64_t tezgumi_mpi_later(uint64_t a, uint64_t b) { return a > b ? a : b; }
static inline uint64_t tezgumi_mpi_earlier(uint64_t a, uint64_t b) { return a < b ? a : b; }

/* The status of an export that was called in order: where it takes its input for bad, something before went wrong. */
static inline int tezgumi_mpi_inner(int carried)
{
    const int status = tezgumi_mpi_status_of(carried);
    return status == TEZGUMI_BAD_INPUT || status == TEZGUMI_BAD_LOAD ? TEZGUMI_MPI_WRONG_PLAN : status;
}

/* So many runs are gathered without a search for fewer: a search takes messages from rank to rank, and the time of a pass over
 * all elements. */
uint64_t tezgumi_mpi_enough(const tezgumi_mpi_search *s);

/* What the functions below return is the same on all ranks. */

/* Learns how the parts lie and what they add up to, or why they are refused. */
int tezgumi_mpi_learn_parts(tezgumi_mpi_search *s);

/* The windows of this part by the bounds alone, without messages. */
void tezgumi_mpi_windows_by_totals(tezgumi_mpi_search *s);

/* The windows of all parts, by bounds that passes over all ranks have narrowed. */
int tezgumi_mpi_windows_by_walks(tezgumi_mpi_search *s);

/* The runs that the windows make of the elements first .. last - 1. */
uint64_t tezgumi_mpi_runs_of(const tezgumi_mpi_windows *windows, uint32_t first, uint32_t last);

/* Merges this part by the windows, and gathers the runs of all parts. Both begin as all 0. */
int tezgumi_mpi_gather_runs(tezgumi_mpi_search *s, tezgumi_mpi_runs *own, tezgumi_mpi_runs *all);

/* Gathers the runs of all parts and divides them: the layout's cuts, the stops and the bottleneck. */
int tezgumi_mpi_divide_runs(tezgumi_mpi_search *s);

/* Checks the division by its loads, added up over all ranks. TEZGUMI_MPI_WRONG_PLAN where it has a flaw. */
int tezgumi_mpi_check_division(tezgumi_mpi_search *s);

/* The greatest load that a block may have by the option refine, where this is the least possible one. */
uint64_t tezgumi_mpi_limit(const tezgumi_mpi_options *options, uint64_t least);

/* Finds the cuts within that limit above the bottleneck that move the fewest bytes where block b goes to rank b, and checks by sums
 * over all ranks that they keep to it: the layout's cuts, and max_load_after of the report. The ranks hold the chain in their own
 * order. */
int tezgumi_mpi_keep_cuts(tezgumi_mpi_search *s);

/* Names the blocks: the layout's names, and the bytes that move. */
int tezgumi_mpi_name_blocks(tezgumi_mpi_search *s);

#endif
