/* Tezgumi's board for C (C99) and C++ (C++11): where the elements of an array report for a round, and where each runs next.
 *
 * An element that has done its work of a round waits, and reports: its work units, the bytes that it packs into, and the PE that it is
 * on. Once all have reported, the round is decided, by the proved planner: the chain of elements is cut into consecutive blocks, one for
 * each PE. Whether the elements are of tezgumi_chares.h, or of a program that has its own messages, is the same to the board.
 *
 *     struct tezgumi_board board = {0};
 *     tezgumi_board_open(&board, n, pes);
 *     until all have finished:
 *         for each element that waits:    tezgumi_board_report(&board, i, round, units, bytes, pe);
 *         if (tezgumi_board_is_complete(&board) == 1) {
 *             tezgumi_board_decide(&board, &round);
 *             tezgumi_board_decision(&board, round, cuts, pes + 1, names, pes, &bottleneck, &moved);
 *             block b, elements cuts[b] .. cuts[b + 1] - 1, goes to PE names[b];  round + 1 begins
 *         }
 *         for each element that finishes: tezgumi_board_finish(&board, i);
 *     tezgumi_board_close(&board);
 *
 * What each call does and answers is proved. The program promises what no test can tell:
 *
 *   - A handle is not copied, and not used by two threads at once. A handle of zeros is closed.
 *   - No pointer is null, not even that of a list without entries; each list has the entries that its length says; what a call writes
 *     overlaps nothing else that it is given.
 *
 * All else is tested. A board keeps what was reported and decided for each round, so that it can be read later: in each round about 16
 * bytes for each element, and 12 more for each that moves. A program of many rounds may close its board after some of them and open
 * another, whose rounds begin with 1 again.
 *
 * Memory is taken by malloc and realloc and given back by free, as tezgumi.h says of them.
 */
#ifndef TEZGUMI_BOARD_H
#define TEZGUMI_BOARD_H

#include <stdbool.h>
#include <stddef.h>
#include <stdint.h>

#ifdef __cplusplus
extern "C" {
#endif

/* Limits. Each is the greatest value that is taken. */
#define TEZGUMI_BOARD_ELEMENTS 65536u                      /* elements of the array, from 0 */
#define TEZGUMI_BOARD_PES 256u                             /* PEs, from 1 */
#define TEZGUMI_BOARD_LOAD UINT64_C(140737488355327)       /* work units of an element in a round; more are counted as so many */
#define TEZGUMI_BOARD_STATE_BYTES 1048576u                 /* bytes that an element packs into, from 0 */
#define TEZGUMI_BOARD_TOLERANCE 1000u                      /* thousandths above the least bottleneck, from 0 */
#define TEZGUMI_BOARD_ROUND 2147483648u                    /* rounds, from 1; the last one is never decided */

/* What a call answers. Under any status but TEZGUMI_BOARD_OK the board is as it was, and nothing is written but the length of a dump. The
 * numbers that tezgumi_chares.h has too mean the same there. */
enum {
    TEZGUMI_BOARD_OK = 0,           /* done, or shown */
    TEZGUMI_BOARD_NOTHING = 1,      /* the round is not decided */
    TEZGUMI_BOARD_LONGER = 2,       /* the dump is longer than its list; the length that is needed was written */
    TEZGUMI_BOARD_BAD_INPUT = -1,   /* a number is past a limit or no PE, or a list is too short */
    TEZGUMI_BOARD_NO_MEMORY = -2,   /* malloc or realloc refused */
    TEZGUMI_BOARD_CLOSED = -3,      /* the handle is closed */
    TEZGUMI_BOARD_OPEN = -4,        /* the handle is open */
    TEZGUMI_BOARD_NOT_NOW = -5,     /* an element has not reported for the round */
    TEZGUMI_BOARD_STRANGER = -6,    /* there is no such element */
    TEZGUMI_BOARD_TOO_LARGE = -7,   /* an element packs into too many bytes */
    TEZGUMI_BOARD_WORN = -8,        /* the last round is not decided */
    TEZGUMI_BOARD_WRONG_ROUND = -11, /* the report is for another round than the present one */
    TEZGUMI_BOARD_TWICE = -12       /* the element has reported for the round */
};

/* A board. One of zeros is closed. */
struct tezgumi_board {
    void *at;
    bool is_open;
};

/* Opens a board for n elements on pes PEs, in round 1. Its rounds are decided for the least bottleneck, as tezgumi_decide does: the
 * greatest load of a block is the least that any cuts allow, and the names of the blocks move the fewest bytes.
 * TEZGUMI_BOARD_OPEN, then TEZGUMI_BOARD_BAD_INPUT, then TEZGUMI_BOARD_NO_MEMORY. */
int32_t tezgumi_board_open(struct tezgumi_board *board, uint32_t n, uint32_t pes);

/* Opens a board whose rounds are decided within a tolerance, in thousandths above the least bottleneck, as tezgumi_refine does with
 * keep_order 0. Refused as the call above. */
int32_t tezgumi_board_open_within(struct tezgumi_board *board, uint32_t n, uint32_t pes, uint32_t tolerance);

/* Closes it and frees what it has. TEZGUMI_BOARD_CLOSED. */
int32_t tezgumi_board_close(struct tezgumi_board *board);

/* Element waits on PE pe for the end of round: its work units since the last one, and the bytes that it packs into.
 * TEZGUMI_BOARD_CLOSED; TEZGUMI_BOARD_BAD_INPUT where pe is no PE of the board or round is past the last one; TEZGUMI_BOARD_STRANGER,
 * TEZGUMI_BOARD_WRONG_ROUND, TEZGUMI_BOARD_TWICE, TEZGUMI_BOARD_TOO_LARGE. The first of these that applies. */
int32_t tezgumi_board_report(
    struct tezgumi_board *board, uint32_t element, uint32_t round, uint64_t units, uint32_t bytes, uint32_t pe);

/* Element has finished. A second time changes nothing. TEZGUMI_BOARD_CLOSED, then TEZGUMI_BOARD_STRANGER. */
int32_t tezgumi_board_finish(struct tezgumi_board *board, uint32_t element);

/* Whether every element has reported for the present round, and whether every element has finished: 1 for yes, which it is at once where
 * there is no element, 0 for no, or TEZGUMI_BOARD_CLOSED. */
int32_t tezgumi_board_is_complete(struct tezgumi_board *board);
int32_t tezgumi_board_all_finished(struct tezgumi_board *board);

/* The present round, for which reports are taken. TEZGUMI_BOARD_CLOSED. */
int32_t tezgumi_board_round(struct tezgumi_board *board, uint32_t *round);

/* Decides the present round, begins the next one, and writes the number of the round that was decided.
 * TEZGUMI_BOARD_CLOSED, TEZGUMI_BOARD_NOT_NOW, TEZGUMI_BOARD_WORN, TEZGUMI_BOARD_NO_MEMORY. The first of these that applies. */
int32_t tezgumi_board_decide(struct tezgumi_board *board, uint32_t *round);

/* The decision of a round. cuts has room for pes + 1 numbers and names for pes: block b is the elements cuts[b] .. cuts[b + 1] - 1, and
 * runs on PE names[b]. *bottleneck is the greatest load of a block, and *moved the bytes of all elements that move. What the lists have
 * behind that stays. TEZGUMI_BOARD_CLOSED; TEZGUMI_BOARD_BAD_INPUT where a list is too short; TEZGUMI_BOARD_NOTHING. */
int32_t tezgumi_board_decision(
    struct tezgumi_board *board, uint32_t round, uint32_t *cuts, size_t cuts_len, uint32_t *names, size_t names_len,
    uint64_t *bottleneck, uint64_t *moved);

/* The PE of one element in the decision of a round. TEZGUMI_BOARD_CLOSED, TEZGUMI_BOARD_STRANGER, TEZGUMI_BOARD_NOTHING. */
int32_t tezgumi_board_place(struct tezgumi_board *board, uint32_t round, uint32_t element, uint32_t *pe);

/* What each element reported for a round that is decided. Each list has room for as many numbers as there are elements. What they have
 * behind that stays. TEZGUMI_BOARD_CLOSED; TEZGUMI_BOARD_BAD_INPUT where a list is too short; TEZGUMI_BOARD_NOTHING. */
int32_t tezgumi_board_snapshot(
    struct tezgumi_board *board, uint32_t round, uint64_t *loads, size_t loads_len, uint32_t *bytes, size_t bytes_len,
    uint32_t *places, size_t places_len);

/* The dump of a round that is decided, in the format LBD2 (FORMATS.md), and how many bytes that is: what was reported, and the decision with
 * its certificates where that is a plan. A decision within a tolerance that is not the plan is left out.
 * TEZGUMI_BOARD_CLOSED, TEZGUMI_BOARD_NOTHING, TEZGUMI_BOARD_NO_MEMORY; TEZGUMI_BOARD_LONGER where text is too short, and then *len is
 * the length that is needed. */
int32_t tezgumi_board_dump(struct tezgumi_board *board, uint32_t round, uint8_t *text, size_t text_len, size_t *len);

#ifdef __cplusplus
}
#endif

#endif
