/* Rebalancing of a chain of elements over the ranks of an MPI communicator, by Tezgumi's planner, for C (C99) and C++.
 *
 *     mpicc -std=c99 app.c $(pkg-config --cflags --libs tezgumi-mpi)
 *
 * The elements have the indices 0 .. n - 1, which are their order along the chain. Each rank holds some of them, in any
 * order, each element on one rank. tezgumi_mpi_rebalance moves them so that afterwards
 *
 *   - the elements of each rank are one range of consecutive indices, or none;
 *   - the greatest load of a rank is the least that any such ranges have, or within a tolerance of it where that is asked;
 *   - of all ways to hand these ranges to the ranks, the one taken moves the fewest bytes, if their order is not asked for.
 *
 * Where each rank holds a part of consecutive elements, whichever rank holds which, no rank sees all elements, and there may
 * be 2^32 - 1 of them. Two steps do it, which can also be called one by one, with plain lists:
 *
 *   1. tezgumi_mpi_decide_part: the ranks find the least ranges together, by numbers of their parts and a few runs of
 *      elements, and prove them by sums over all ranks. The ranks compare a fingerprint of what they decided.
 *   2. tezgumi_mpi_move_part: what leaves a rank is packed and exchanged, and what arrives is unpacked. Where the elements are
 *      plain arrays, tezgumi_mpi_move_arrays copies them, without callbacks.
 *
 * Otherwise each rank gets to know all elements, which are few then, in three steps:
 *
 *   1. tezgumi_mpi_gather: all ranks learn index, load and packed size of all elements, 16 bytes of each.
 *   2. tezgumi_mpi_decide: each rank plans by itself, and checks the plan by the separate checker. Nothing is broadcast: the
 *      same input has the same plan, and the same decision within a tolerance, as is proved of the planner (the laws one_plan and
 *      one_refined_run of lb_lists). The ranks compare a fingerprint of what they decided.
 *   3. tezgumi_mpi_move: as above.
 *
 * Both ways have the same ranges, on the same ranks. tezgumi_mpi_rebalance takes the first one where it can.
 *
 * What is proved is the plan and its check, behind tezgumi.h and tezgumi_parts.h. This library is plain C over them: tested,
 * and not proved.
 *
 * All functions that take a communicator are collective over it: every rank calls them, in the same order. They return the
 * same status on all ranks, so all go on or none does: if anything fails on one rank, be it a callback, a request for memory
 * or a null pointer, all ranks return that. If ranks fail in different ways, all return the status of the least value.
 * Errors of MPI itself are the exception. The communicator's error handler gets them, which ends the program if it is not
 * set otherwise; a rank whose handler returns returns TEZGUMI_MPI_ERROR, and nothing is known of the others.
 *
 * Limits, below: those of what is gathered, and those of parts. The ranks have the same byte order. The library keeps nothing
 * between calls, so threads may rebalance over different communicators.
 */
#ifndef TEZGUMI_MPI_H
#define TEZGUMI_MPI_H

#include <mpi.h>
#include <tezgumi.h>

#ifdef __cplusplus
extern "C" {
#endif

/* Limits where all elements are gathered. Each is the greatest value that is taken. */
#define TEZGUMI_MPI_GATHERED_ELEMENTS 65536u
#define TEZGUMI_MPI_GATHERED_RANKS 256u
#define TEZGUMI_MPI_GATHERED_LOAD UINT64_C(140737488355327) /* load of an element: 2^47 - 1 */
#define TEZGUMI_MPI_GATHERED_BYTES 1048576u                 /* packed size of an element: 1 MiB */

/* Limits where each rank holds a part of consecutive elements. All loads together are below 2^63. */
#define TEZGUMI_MPI_ELEMENTS 4294967295u                  /* elements of all ranks */
#define TEZGUMI_MPI_RANKS 65536u                          /* ranks, with the option keep_order, */
#define TEZGUMI_MPI_NAMED_RANKS 4096u                     /* and without it */
#define TEZGUMI_MPI_BYTES 1073741824u                     /* packed size of an element: 1 GiB */
#define TEZGUMI_MPI_TOTAL_BYTES UINT64_C(140737488355328) /* of all elements: 2^47 */

/* What a call answers, beside TEZGUMI_OK, TEZGUMI_BAD_INPUT, TEZGUMI_NO_MEMORY and TEZGUMI_BAD_LOAD of tezgumi.h. */
enum {
    TEZGUMI_MPI_BAD_INDEX = -10,  /* an index is held twice, or is past the end, so that another is held by nobody */
    TEZGUMI_MPI_WRONG_PLAN = -11, /* the checker found a flaw in the plan: broken memory or a broken library */
    TEZGUMI_MPI_DISAGREE = -12,   /* the ranks decided differently: unlike options, chains or libraries */
    TEZGUMI_MPI_CALLBACK = -13,   /* a callback answered other than 0 */
    TEZGUMI_MPI_LIBRARY = -14,    /* the libtezgumi that runs does not fit the header that this was compiled with */
    TEZGUMI_MPI_ERROR = -15,      /* an MPI call failed on this rank */
    TEZGUMI_MPI_SCATTERED = -16   /* a rank's elements are not consecutive, and all are too many to be gathered */
};

/* The status in words, those of tezgumi.h included. */
const char *tezgumi_mpi_status_name(int status);

/* Which rule of the input was broken, where a call answers TEZGUMI_BAD_INPUT or TEZGUMI_BAD_LOAD: failed_rule of the report says so. In
 * failed_at is the element, where the rule is about one. */
enum {
    TEZGUMI_MPI_RULE_NONE = 0,         /* none */
    TEZGUMI_MPI_RULE_GROUPS = 1,       /* comm has two groups of ranks (an intercommunicator) */
    TEZGUMI_MPI_RULE_RANKS = 2,        /* comm has too many ranks */
    TEZGUMI_MPI_RULE_NULL = 3,         /* a list of elements, the chain, the part or the layout is null */
    TEZGUMI_MPI_RULE_CALLBACKS = 4,    /* pack or unpack is null, or both with their struct */
    TEZGUMI_MPI_RULE_ELEMENTS = 5,     /* a rank has too many elements, or all have */
    TEZGUMI_MPI_RULE_BYTES = 6,        /* this element is too large */
    TEZGUMI_MPI_RULE_TOTAL_BYTES = 7,  /* all elements are too large together */
    TEZGUMI_MPI_RULE_LOAD = 8,         /* this element has too great a load */
    TEZGUMI_MPI_RULE_TOTAL_LOAD = 9,   /* the loads add up to too much; with parts the element has the greatest */
    TEZGUMI_MPI_RULE_TOLERANCE = 10,   /* the option tolerance is below 0 or not a number; or above 1, with refine */
    TEZGUMI_MPI_RULE_REFINE = 11,      /* the option refine is not for parts */
    TEZGUMI_MPI_RULE_LAYOUT = 12,      /* the layout is of other ranks, or has not this move under way, or has another */
    TEZGUMI_MPI_RULE_CUTS = 13,        /* the cuts, names, firsts and counts of the layout do not fit together */
    TEZGUMI_MPI_RULE_PART = 14,        /* the part is not what the layout says that the rank holds */
    TEZGUMI_MPI_RULE_CHAIN = 15,       /* the chain is of other ranks, or has no room for its elements */
    TEZGUMI_MPI_RULE_PLACES = 16,      /* the present or the new place of this element is not a rank */
    TEZGUMI_MPI_RULE_FIELDS = 17       /* an array of this field (failed_at) is null, or its stride is too narrow or too wide */
};

/* The rule in words: which argument, and what is wrong with it. */
const char *tezgumi_mpi_rule_name(int rule);

/* An element that this rank holds. */
typedef struct {
    uint64_t load;  /* its work since the last rebalance, in any unit that all ranks share */
    uint32_t index; /* its number along the chain */
    uint32_t bytes; /* its packed size: pack fills exactly so many bytes */
} tezgumi_mpi_element;

/* How elements are copied. pack and unpack answer 0, or anything else where they fail. None of them may leave by longjmp
 * or an exception, or use the communicator. Buffers are aligned for every type; those of 0 bytes are not null. */
typedef struct {
    /* Writes the element into the buffer and keeps it, for the move may yet fail. Called in order of index. */
    int (*pack)(void *app, uint32_t index, void *to, uint32_t bytes);
    /* Makes the element from the buffer; where it fails, it keeps nothing of it. Called in order of index, while elements
     * that leave this rank are still here. */
    int (*unpack)(void *app, uint32_t index, const void *from, uint32_t bytes);
    /* Gives up the element: it has arrived elsewhere, or it had arrived here and the exchange failed. May be null where
     * nothing is to be given up. */
    void (*drop)(void *app, uint32_t index);
    void *app; /* handed to each callback */
} tezgumi_mpi_callbacks;

/* Options, the same on all ranks. All 0 is the default, which a null pointer stands for. */
typedef struct {
    /* How much worse than best is good enough, from 0. Where each rank has one range already (and, with keep_order, they hold the chain
     * in their own order), and the greatest load is at most 1 + tolerance times what it would be, nothing moves. With 0, nothing moves
     * where nothing would be gained. */
    double tolerance;
    /* How many bytes a rank sends in one exchange at most, and how many it receives; 0 means 64 MiB, and above 1 GiB is
     * 1 GiB. What is more goes in several exchanges. Sizes are rounded up to 16; an element greater than room goes alone. */
    size_t room;
    /* 1: trust the planner, and leave the checker out. */
    int skip_check;
    /* 1: keep to the tolerance, which is then 1 at most and taken to the nearest thousandth, and move fewer bytes: tezgumi_refine of
     * tezgumi.h decides. The limit is 1 + tolerance times the least possible greatest load.
     *   - Where each rank has one range already, and none is above the limit, nothing moves.
     *   - Else, where each rank has one range, those ranges within the limit are taken that move the fewest bytes while the ranks keep
     *     the order in which they hold the chain. These are then handed to the ranks anew, so that the fewest bytes move for them.
     *   - Where that moves no fewer bytes than the least ranges do, and where a rank's elements are scattered, it is these.
     * So the ranks need not keep their order, and other ranges within the limit may move fewer bytes in another order. Loads of
     * 6 2 1 2, of 2, 37, 15 and 6 bytes, on the ranks 0 0 1 2, with the tolerance 0.3: in this order 37 bytes are the fewest, by
     * the cuts 0 1 3 4; these ranges go to the ranks 1, 0 and 2, and 17 move; by the cuts 0 1 2 4 on 2, 0 and 1 it would be 8. */
    int refine;
    /* 1: block b goes to rank b, whatever that moves, so that neighbours along the chain are neighbouring ranks. No table of
     * ranks by ranks is made, so this is for more than TEZGUMI_MPI_NAMED_RANKS too. Together with refine the ranges within the limit
     * are taken that move the fewest bytes so, and of several such ranges those nearest to the present ones, where the ranks hold the
     * chain in their own order, each one range (and, if all elements are gathered, those without elements last); otherwise the least
     * ranges. A mesh that is dealt out along a curve wants both: then as few elements move as the tolerance lets, between ranks that
     * are neighbours mostly, and no rank sees all elements. */
    int keep_order;
} tezgumi_mpi_options;

/* What happened. All but the seconds is of all ranks together, and the same on all. After a refusal only failed_rank,
 * failed_at, failed_rule and seconds are of use; after TEZGUMI_MPI_CALLBACK all is. */
typedef struct {
    uint64_t max_load_before; /* load of the heaviest rank, as gathered */
    uint64_t max_load_after;  /* the same, by the decision */
    double average_load;      /* load of all elements, over the number of ranks */
    uint64_t bytes_moved;     /* by the decision; after a move, what has moved */
    uint32_t elements_moved;  /* likewise */
    uint32_t exchanges;       /* completed ones */
    int failed_rank;          /* after a failure: a rank on which it came up; -1 if there was none, or it is unknown */
    uint32_t failed_at;       /* and there the element; for TEZGUMI_MPI_WRONG_PLAN the flaw, a status of tezgumi.h */
    double gather_seconds;    /* seconds on this rank: the gathering, */
    double plan_seconds;      /* the planning, */
    double check_seconds;     /* the checking, */
    double agree_seconds;     /* the comparing with other ranks, which waits for the last of them, */
    double move_seconds;      /* and the packing, exchanging and unpacking */
    double walk_seconds;      /* where parts were divided: the passes and the search for windows, */
    double name_seconds;      /* and the naming, with its check */
    uint32_t gathered;        /* elements that each rank got to know; where parts were divided, runs of elements */
    uint32_t passes;          /* where parts were divided: passes over all ranks, which narrow the bounds, */
    uint32_t retries;         /* and 1 where the checker refused the first division, and a wider search found another */
    int failed_rule;          /* after TEZGUMI_BAD_INPUT and TEZGUMI_BAD_LOAD the rule that was broken: TEZGUMI_MPI_RULE_.. */
} tezgumi_mpi_report;

/* All elements, as every rank knows them. It begins as all 0, can be used again and again, and ends with
 * tezgumi_mpi_chain_free. The lists have an entry for each element, by index. */
typedef struct {
    uint32_t n;           /* elements */
    uint32_t ranks;       /* ranks of the communicator */
    uint64_t *loads;      /* their loads */
    uint32_t *bytes;      /* their packed sizes */
    uint32_t *places;     /* the rank of each now */
    uint32_t *new_places; /* the rank of each by the decision */
    uint32_t capacity;    /* elements that the room is for */
    void *room;           /* what tezgumi_mpi_chain_free gives back */
} tezgumi_mpi_chain;

/* Gives the room back and makes all of *chain null and 0. chain may be null. Not collective. */
void tezgumi_mpi_chain_free(tezgumi_mpi_chain *chain);

/* The range of a rank, *first .. *end - 1, empty where *first == *end. Answers 1 if the rank's elements are exactly these,
 * and 0 if it holds elements that are not consecutive: then the range is from the least to the greatest. Not collective. */
int tezgumi_mpi_range(const tezgumi_mpi_chain *chain, int rank, uint32_t *first, uint32_t *end);

/* How a chain in parts lies on the ranks, and how it is to lie: the same on all ranks, but for sent, received and room. It begins as
 * all 0, can be used again and again, and ends with tezgumi_mpi_layout_free. It takes 24 bytes for each rank. */
typedef struct {
    uint32_t n;         /* elements of all ranks */
    uint32_t ranks;     /* ranks of the communicator */
    uint32_t *firsts;   /* ranks: rank r holds the elements firsts[r] .. firsts[r] + counts[r] - 1; */
    uint32_t *counts;   /* ranks: how many these are */
    uint32_t *cuts;     /* ranks + 1: by the decision block b is the elements cuts[b] .. cuts[b + 1] - 1, */
    uint32_t *names;    /* ranks: and goes to rank names[b] */
    uint32_t *sent;     /* ranks: how many elements of a move under way have gone from here to each rank, */
    uint32_t *received; /* ranks: and come here from each */
    uint64_t move;      /* a fingerprint of that move; 0 before its first exchange, and where there is none */
    void *room;         /* what tezgumi_mpi_layout_free gives back */
} tezgumi_mpi_layout;

/* Gives the room back and makes all of *layout null and 0. layout may be null. Not collective. */
void tezgumi_mpi_layout_free(tezgumi_mpi_layout *layout);

/* Decide and move in one call.
 *
 * mine are the count elements that this rank holds, in any order. All that follows callbacks may be null. chain says afterwards
 * where each element is: tezgumi_mpi_range then gives the range of each rank. layout, which is given on all ranks or on none, has
 * these ranges where no rank saw all elements (firsts and counts), and otherwise no ranks.
 *
 * Where chain is null, refine is 0 or keep_order is not, and each rank's elements are consecutive, no rank sees all elements. Otherwise they
 * are gathered. Where that is because of scattered elements alone, and there are more than TEZGUMI_MPI_GATHERED_ELEMENTS or
 * TEZGUMI_MPI_GATHERED_RANKS, the status is TEZGUMI_MPI_SCATTERED, and failed_rank one that holds such elements.
 *
 * TEZGUMI_OK: all elements are where they belong. Otherwise the refusals of the steps, in their order. Nothing has moved, but where the
 * status is TEZGUMI_MPI_CALLBACK: the exchanges before that of the failure have moved their elements.
 *
 * After TEZGUMI_MPI_CALLBACK call again, with the elements that each rank holds now and the same layout. Where its move is not 0,
 * that move goes on where it ended, as it was decided: chain has to be null, no option but room is looked at, and of the report only
 * what has moved in this call is of use. TEZGUMI_BAD_INPUT where a rank's layout has not this move, or its cuts or names have been
 * changed; TEZGUMI_MPI_BAD_INDEX where a rank's elements are not those that it holds by the layout, failed_at being one of them;
 * then the refusals of tezgumi_mpi_move_part. To decide anew instead, give the layout back first. Elements that are scattered and
 * too many to be gathered go on by a layout alone. */
int tezgumi_mpi_rebalance(MPI_Comm comm, const tezgumi_mpi_element *mine, uint32_t count,
    const tezgumi_mpi_callbacks *callbacks, const tezgumi_mpi_options *options, tezgumi_mpi_chain *chain,
    tezgumi_mpi_layout *layout, tezgumi_mpi_report *report);

/* ---- Parts of consecutive elements ---- */

/* The part of the chain that this rank holds: the elements first .. first + count - 1. */
typedef struct {
    const uint64_t *loads; /* count: the load of each; null is allowed where count is 0, and for tezgumi_mpi_move_part */
    const uint32_t *bytes; /* count: the packed size of each; null is allowed where count is 0 */
    uint32_t first;        /* of no meaning where count is 0 */
    uint32_t count;
} tezgumi_mpi_part;

/* Step 1 for parts. Fills the layout: firsts and counts as the parts are now, cuts and names by the decision, which is the same
 * as that of tezgumi_mpi_decide, but where a rank without elements is between others that are to keep their order; they are the
 * present ranges where the tolerance lets all be. With keep_order that is where the ranks hold the chain in their own order too.
 * refine is for keep_order alone here. It begins the report anew.
 *
 * How: the bounds of the least possible greatest load follow from totals, and are narrowed, where that saves much, by passes
 * that try up to 64 limits each. Elements that may begin a block of some such division stay single, and those between are
 * merged into runs, few enough to be gathered. All ranks divide the runs, and prove the division by its loads, summed up
 * over the ranks. A rank needs its part, what is gathered, some lists with an entry for each rank, and, unless the order is
 * kept, two tables of 8 bytes for each two ranks. With refine the limit follows from that division, and two walks over the ranks, from
 * the first and from the last, bound the cuts that may move the fewest bytes; only elements between the bounds of a cut stay single
 * then. From the runs, with their bytes, each rank finds the same cuts, and the ranks check by sums that these keep to the limit.
 *
 * In this order: TEZGUMI_BAD_INPUT where there are two groups of ranks (an intercommunicator), and the layout is as it was;
 * TEZGUMI_MPI_LIBRARY; TEZGUMI_BAD_INPUT for too many ranks or a null pointer; TEZGUMI_NO_MEMORY; TEZGUMI_BAD_INPUT for too many
 * elements; TEZGUMI_MPI_BAD_INDEX where a part does not begin where the one before it ends, failed_at being its first element;
 * TEZGUMI_BAD_INPUT for an element of too many bytes, or too many of all; TEZGUMI_BAD_LOAD where all loads are too great,
 * failed_at being an element of the greatest load; TEZGUMI_BAD_INPUT for the tolerance, or for refine without keep_order or with a
 * tolerance above 1; TEZGUMI_MPI_DISAGREE where the
 * options differ; then TEZGUMI_NO_MEMORY, which is also the answer to 2^31 runs or more to gather; TEZGUMI_MPI_WRONG_PLAN;
 * TEZGUMI_MPI_DISAGREE. After any of these the layout has no elements, no ranks and no move. */
int tezgumi_mpi_decide_part(MPI_Comm comm, const tezgumi_mpi_part *part, const tezgumi_mpi_options *options,
    tezgumi_mpi_layout *layout, tezgumi_mpi_report *report);

/* Step 2 for parts. Moves each element to the rank that cuts and names say, whoever wrote these: they may come from another
 * partitioner. Then firsts and counts are the new ranges. part is as it was for step 1.
 *
 * Each exchange is done as a whole or not at all: elements are dropped where they were when all ranks have unpacked what
 * arrived. After TEZGUMI_MPI_CALLBACK the exchanges before have moved their elements, that of the failure is undone, and the
 * same call, with the same cuts and names, goes on where it ended: firsts, counts and part are still as before the move.
 *
 * TEZGUMI_BAD_INPUT where there are two groups of ranks, a pointer is null, the layout is of another number of ranks, the part is
 * not what it says, the cuts do not divide the elements, the names are not all ranks, or a move by other cuts or names has
 * not ended; TEZGUMI_NO_MEMORY; TEZGUMI_MPI_DISAGREE where the layouts or the room differ, or sent and received: nothing has moved. */
int tezgumi_mpi_move_part(MPI_Comm comm, const tezgumi_mpi_part *part, tezgumi_mpi_layout *layout,
    const tezgumi_mpi_callbacks *callbacks, const tezgumi_mpi_options *options, tezgumi_mpi_report *report);

/* The elements that a rank is to hold by the decision: *first .. *end - 1, empty where *first == *end. Answers 0, and an empty range,
 * where the layout has no such rank. Not collective. */
int tezgumi_mpi_new_range(const tezgumi_mpi_layout *layout, int rank, uint32_t *first, uint32_t *end);

/* What one rank imports and exports, element by element, in order of index. It begins as all 0, can be used again and again, and ends
 * with tezgumi_mpi_lists_free. */
typedef struct {
    uint32_t imports;         /* how many elements come to the rank: */
    uint32_t *import_indices; /* of each its index, */
    uint32_t *import_ranks;   /* and the rank that it comes from */
    uint32_t exports;         /* how many elements leave the rank: */
    uint32_t *export_indices; /* of each its index, */
    uint32_t *export_ranks;   /* and the rank that it goes to */
    void *room;               /* what tezgumi_mpi_lists_free gives back */
} tezgumi_mpi_lists;

/* Gives the room back and makes all of *lists null and 0. lists may be null. Not collective. */
void tezgumi_mpi_lists_free(tezgumi_mpi_lists *lists);

/* Lists what a rank, this one or another, imports and exports by the decision of a layout, which is only read. Where callbacks have
 * ended a move, it is what is still to go, and for the rank alone whose layout it is. Not collective.
 *
 * TEZGUMI_BAD_INPUT where a pointer is null, the layout has no such rank, its cuts do not divide the elements, or its names are not all
 * ranks; TEZGUMI_NO_MEMORY. After either the lists are as they were. */
int tezgumi_mpi_lists_of(const tezgumi_mpi_layout *layout, int rank, tezgumi_mpi_lists *lists);

/* A field of the elements: so many bytes of each, in an array of the elements that this rank holds, and in another of those that it
 * is to hold. An array that would have no elements, or no bytes, may be null. */
typedef struct {
    const void *from;   /* of element firsts[rank] + k the bytes are at from + k * from_stride; they are not written to */
    void *to;           /* with the range of tezgumi_mpi_new_range, those of element *first + k come to be at to + k * to_stride */
    size_t from_stride; /* from one element to the next: bytes at least, where there are two */
    size_t to_stride;   /* likewise; strides may differ from rank to rank */
    size_t bytes;       /* of each element, the same on all ranks */
} tezgumi_mpi_field;

/* Step 2 for parts whose elements are plain arrays: moves so many fields in place of calling callbacks. What stays on its rank is copied
 * too, so that each `to` has all elements of the new range, in order, and nothing else is written. Then firsts and counts are the
 * new ranges. Cuts and names may come from another partitioner.
 *
 *     tezgumi_mpi_new_range(&layout, rank, &first, &end);
 *     double *after = malloc((end - first) * sizeof *after);
 *     const tezgumi_mpi_field field = {before, after, sizeof *before, sizeof *after, sizeof *after};
 *     status = tezgumi_mpi_move_arrays(comm, &layout, &field, 1, NULL, NULL);
 *
 * It goes in exchanges, as with callbacks: a rank sends so many whole elements as fit into the room of the options, and receives so
 * many, one at least. Bytes of an element are those of all its fields, not rounded up. A rank needs two buffers of that room, or as
 * great as all that it sends and receives, if that is less.
 *
 * All of it is done or nothing: all memory is there on all ranks before anything is written, and afterwards nothing but MPI can fail. What
 * is in `from` stays, to be given back by the caller. After any answer but TEZGUMI_OK and TEZGUMI_MPI_ERROR no `to` was written, and
 * the layout is as it was. The caller owes that what is written overlaps nothing else that any field names.
 *
 * TEZGUMI_BAD_INPUT where there are two groups of ranks, a pointer is null, the layout is of another number of ranks, its ranges or its
 * cuts do not divide the elements, the names are not all ranks, a move by callbacks has not ended, a stride is less than bytes
 * or past the address space, or an element has more than TEZGUMI_MPI_BYTES; TEZGUMI_NO_MEMORY; TEZGUMI_MPI_DISAGREE where the
 * layouts, the room, the number of fields or their bytes differ. */
int tezgumi_mpi_move_arrays(MPI_Comm comm, tezgumi_mpi_layout *layout, const tezgumi_mpi_field *fields, uint32_t count,
    const tezgumi_mpi_options *options, tezgumi_mpi_report *report);

/* ---- All elements on all ranks ---- */

/* Step 1. Fills the chain, with new_places equal to places, and begins the report anew.
 *
 * In this order: TEZGUMI_MPI_LIBRARY; TEZGUMI_BAD_INPUT where there are too many ranks or elements, a null pointer, or two
 * groups of ranks (an intercommunicator); TEZGUMI_NO_MEMORY; TEZGUMI_MPI_BAD_INDEX; TEZGUMI_BAD_INPUT for an element of
 * too many bytes; TEZGUMI_BAD_LOAD. After any of these the chain has no elements. */
int tezgumi_mpi_gather(MPI_Comm comm, const tezgumi_mpi_element *mine, uint32_t count, tezgumi_mpi_chain *chain,
    tezgumi_mpi_report *report);

/* Step 2. Writes new_places: the plan, or the present places if the tolerance lets all be. Until it answers TEZGUMI_OK,
 * new_places is left as it was.
 *
 * TEZGUMI_BAD_INPUT where there are two groups of ranks (an intercommunicator), and nothing is sent; where the chain is null, of another
 * number of ranks, has more elements than room or a place that is not a rank; or the tolerance is negative or no number; or it is
 * above 1 and refine is 1. Then TEZGUMI_NO_MEMORY; TEZGUMI_MPI_WRONG_PLAN; TEZGUMI_MPI_DISAGREE, also where only max_load_after differs. */
int tezgumi_mpi_decide(MPI_Comm comm, tezgumi_mpi_chain *chain, const tezgumi_mpi_options *options,
    tezgumi_mpi_report *report);

/* Step 3. Moves each element from places to new_places, whoever wrote these: they may come from another partitioner.
 *
 * Each exchange is done as a whole or not at all: elements are dropped where they were when all ranks have unpacked what
 * arrived. places is kept up to date, so after a failure too it says where each element is.
 *
 * TEZGUMI_BAD_INPUT where there are two groups of ranks, and nothing is sent; where a pointer is null, the chain is of another number of
 * ranks, it has more elements than room, or an element has a place, old or new, that is not a rank, or too many bytes;
 * TEZGUMI_NO_MEMORY; TEZGUMI_MPI_DISAGREE where the chains or the room differ: nothing has moved. TEZGUMI_MPI_CALLBACK: the exchanges before have moved their elements, and that of the
 * failure is undone. */
int tezgumi_mpi_move(MPI_Comm comm, tezgumi_mpi_chain *chain, const tezgumi_mpi_callbacks *callbacks,
    const tezgumi_mpi_options *options, tezgumi_mpi_report *report);

#ifdef __cplusplus
}
#endif
#endif
