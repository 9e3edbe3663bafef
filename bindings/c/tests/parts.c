/* Each export on a chain in parts: what it answers where it succeeds, and each refusal with what it leaves. The answers were
 * worked out by hand. */
#include "harness.h"
#include <tezgumi_parts.h>

enum { P = 3, PARTS = 3 };

/* Twelve elements in three parts. The least bottleneck of three blocks is 21: they weigh 14, 17 and 21. */
static const uint64_t front[] = {3, 1, 4, 1, 5}, middle[] = {9, 2, 6, 5}, back[] = {3, 5, 8};
static const uint64_t *const parts[PARTS] = {front, middle, back};
static const size_t counts[PARTS] = {5, 4, 3};
static const uint32_t firsts[PARTS] = {0, 5, 9};
static const uint32_t cuts[P + 1] = {0, 5, 8, 12}, stops[P + 1] = {0, 5, 8, 11};

/* Loads that add up to 2^63. */
static const uint64_t heavy[2] = {UINT64_C(1) << 62, UINT64_C(1) << 62};

static int are(const uint32_t *found, size_t count, const uint32_t *wanted)
{
    return !memcmp(found, wanted, count * sizeof *found);
}

static int weigh(const uint64_t *found, size_t count, const uint64_t *wanted)
{
    return !memcmp(found, wanted, count * sizeof *found);
}

static void the_bounds(void)
{
    uint64_t low = 7, high = 7;
    same("no block", tezgumi_part_bounds(52, 9, 0, &low, &high), TEZGUMI_BAD_INPUT);
    same("65,537 blocks", tezgumi_part_bounds(52, 9, TEZGUMI_PART_PES + 1, &low, &high), TEZGUMI_BAD_INPUT);
    same("a total of 2^63", tezgumi_part_bounds(TEZGUMI_TOTAL_LOAD + 1, 9, P, &low, &high), TEZGUMI_BAD_LOAD);
    test("leave the bounds", low == 7 && high == 7);
    same("a total of 52 and a greatest load of 9", tezgumi_part_bounds(52, 9, P, &low, &high), TEZGUMI_OK);
    test("bound it by 18 and 26", low == 18 && high == 26);
    same("65,536 blocks", tezgumi_part_bounds(52, 9, TEZGUMI_PART_PES, &low, &high), TEZGUMI_OK);
    test("bound it by 9 and 9", low == 9 && high == 9);
}

static void the_limits(void)
{
    static const uint64_t wanted[P] = {19, 21, 23}, untouched[P] = {7, 7, 7};
    uint64_t limits[P] = {7, 7, 7};
    size_t count = 7;
    same("a lower bound above the upper one", tezgumi_part_limits(27, 26, limits, P, &count), TEZGUMI_BAD_INPUT);
    test("leaves the limits", count == 7 && weigh(limits, P, untouched));
    same("bounds that meet", tezgumi_part_limits(26, 26, limits, P, &count), TEZGUMI_OK);
    test("have no limits between", count == 0 && weigh(limits, P, untouched));
    same("three limits", tezgumi_part_limits(18, 26, limits, P, &count), TEZGUMI_OK);
    test("are 19, 21 and 23", count == P && weigh(limits, P, wanted));
}

/* The walks go over all parts, and narrow the bounds of the first step. */
static void the_walks(void)
{
    static const uint64_t limits[P] = {19, 21, 23}, behind[P] = {0, 21, 8}, none[1] = {UINT64_MAX};
    static const uint32_t ends[P] = {3, 2, 2};
    uint32_t closed[P] = {0, 0, 0};
    uint64_t filled[P] = {0, 0, 0}, low = 18, high = 26;
    int k, walked = 1;
    for (k = 0; k < PARTS; k++)
        walked = tezgumi_part_walk(parts[k], counts[k], P, limits, P, closed, P, filled, P) == TEZGUMI_OK && walked;
    test("the parts are walked over", walked);
    test("within 19 not to the end", are(closed, P, ends) && weigh(filled, P, behind));
    same("a limit of 2^64 - 1", tezgumi_part_narrow(P, none, 1, ends, 1, &low, &high), TEZGUMI_BAD_INPUT);
    same("a walk less than limits", tezgumi_part_narrow(P, limits, P, closed, P - 1, &low, &high), TEZGUMI_BAD_INPUT);
    same("no block", tezgumi_part_narrow(0, limits, P, closed, P, &low, &high), TEZGUMI_BAD_INPUT);
    test("leave the bounds", low == 18 && high == 26);
    same("the bounds are narrowed", tezgumi_part_narrow(P, limits, P, closed, P, &low, &high), TEZGUMI_OK);
    test("to 20 and 21", low == 20 && high == 21);
}

static void the_refused_walks(void)
{
    static const uint64_t limit[1] = {21};
    uint32_t closed[1] = {0};
    uint64_t filled[1] = {14};
    same("loads of 2^63", tezgumi_part_walk(heavy, 2, P, limit, 1, closed, 1, filled, 1), TEZGUMI_BAD_LOAD);
    same("and no block", tezgumi_part_walk(heavy, 2, 0, limit, 1, closed, 1, filled, 1), TEZGUMI_BAD_INPUT);
    same("a walk less than limits", tezgumi_part_walk(front, 5, P, limit, 1, closed, 0, filled, 1), TEZGUMI_BAD_INPUT);
    same("a load less than limits", tezgumi_part_walk(front, 5, P, limit, 1, closed, 1, filled, 0), TEZGUMI_BAD_INPUT);
    test("leave the walk", closed[0] == 0 && filled[0] == 14);
}

/* Numbers of walks come by message. Those that no walk has are no cause of harm. */
static void the_wrong_walks(void)
{
    static const uint64_t limit[2] = {21, 21};
    uint32_t closed[2] = {9, 0};
    uint64_t filled[2] = {0, UINT64_MAX};
    same("too much closed, and too much filled", tezgumi_part_walk(front, 5, P, limit, 2, closed, 2, filled, 2), TEZGUMI_OK);
    test("no more than all are closed", closed[0] == P && closed[1] <= P);
}

/* Over the second part, before which the open block weighs 14. */
static int32_t end(uint32_t first, uint64_t limit, size_t room, uint32_t *closed, uint64_t *filled, uint32_t *ends, size_t *count)
{
    *closed = 0;
    *filled = 14;
    *count = ends[0] = ends[1] = ends[2] = 7;
    return tezgumi_part_ends(middle, 4, first, P, limit, closed, filled, ends, room, count);
}

static void the_ends(void)
{
    static const uint32_t within_21[P] = {5, 8, 7}, within_26[P] = {7, 7, 7}, untouched[P] = {7, 7, 7};
    uint32_t closed, ends[P];
    uint64_t filled;
    size_t count;
    same("ends within 21", end(5, 21, P, &closed, &filled, ends, &count), TEZGUMI_OK);
    test("are 5 and 8", count == 2 && are(ends, P, within_21) && closed == 2 && filled == 5);
    same("ends within 26", end(5, 26, P, &closed, &filled, ends, &count), TEZGUMI_OK);
    test("the first is 7", count == 1 && are(ends, P, within_26) && closed == 1 && filled == 11);
    same("an element of number 2^32 - 1", end(UINT32_MAX - 3, 21, P, &closed, &filled, ends, &count), TEZGUMI_BAD_INPUT);
    test("leaves all", count == 7 && are(ends, P, untouched) && closed == 0 && filled == 14);
    same("room for an end less", end(5, 21, P - 1, &closed, &filled, ends, &count), TEZGUMI_BAD_INPUT);
    test("leaves all", count == 7 && are(ends, P, untouched) && closed == 0 && filled == 14);
}

/* Merges the second part within windows up to these elements. */
static int32_t merge(const uint32_t *upper, size_t windows, size_t room, uint64_t *run_loads, uint32_t *run_ends, size_t *count)
{
    static const uint32_t lower[] = {0, 5, 8, 11};
    *count = run_loads[0] = run_loads[1] = run_ends[0] = run_ends[1] = 7;
    return tezgumi_part_merge(middle, 4, 5, lower, 4, upper, windows, run_loads, room, run_ends, 2, count);
}

static void the_runs(void)
{
    static const uint32_t upper[] = {0, 5, 8, 12}, ends[] = {8, 9};
    uint64_t run_loads[2];
    uint32_t run_ends[2];
    size_t count;
    same("the second part is merged", merge(upper, 4, 2, run_loads, run_ends, &count), TEZGUMI_OK);
    test("into 17 and 5", count == 2 && run_loads[0] == 17 && run_loads[1] == 5 && are(run_ends, 2, ends));
    same("with room for one load", merge(upper, 4, 1, run_loads, run_ends, &count), TEZGUMI_OK);
    test("both are counted, and left", count == 2 && run_loads[0] == 7 && run_ends[0] == 7);
    same("a window without an end", merge(upper, 3, 2, run_loads, run_ends, &count), TEZGUMI_BAD_INPUT);
    test("leaves all", count == 7 && run_loads[0] == 7 && run_ends[0] == 7);
}

static int32_t divide(
    const uint64_t *runs, size_t n, uint32_t pes, uint64_t *bottleneck, uint32_t *to, uint32_t *fence, size_t *count)
{
    size_t k;
    for (k = 0; k <= P; k++) to[k] = fence[k] = 7;
    *bottleneck = *count = 7;
    return tezgumi_divide(runs, n, pes, bottleneck, to, P + 1, fence, P + 1, count);
}

static void the_divisions(void)
{
    static const uint64_t runs[] = {14, 17, 5, 8, 8}, zero[2] = {0, 0};
    static const uint32_t of_runs[] = {0, 1, 2, 5}, fence_of_runs[] = {0, 1, 2, 4}, of_zero[] = {0, 2, 2, 2};
    static const uint32_t untouched[] = {7, 7, 7, 7};
    uint64_t bottleneck;
    uint32_t to[P + 1], fence[P + 1];
    size_t count;
    same("the merged chain is divided", divide(runs, 5, P, &bottleneck, to, fence, &count), TEZGUMI_OK);
    test("as the chain", bottleneck == 21 && are(to, P + 1, of_runs) && count == P + 1 && are(fence, P + 1, fence_of_runs));
    same("no load", divide(zero, 2, P, &bottleneck, to, fence, &count), TEZGUMI_OK);
    test("has no fence", bottleneck == 0 && are(to, P + 1, of_zero) && count == 0 && are(fence, P + 1, untouched));
    same("room for other cuts", divide(zero, 2, P - 1, &bottleneck, to, fence, &count), TEZGUMI_BAD_INPUT);
    test("leaves all", bottleneck == 7 && are(to, P + 1, untouched) && count == 7 && are(fence, P + 1, untouched));
    same("loads of 2^63", divide(heavy, 2, P, &bottleneck, to, fence, &count), TEZGUMI_BAD_LOAD);
    test("leave all", bottleneck == 7 && are(to, P + 1, untouched) && count == 7 && are(fence, P + 1, untouched));
}

static int32_t load(
    const uint64_t *part, size_t n, uint32_t first, size_t stops_count, uint64_t *blocks, size_t room, uint64_t *fence)
{
    return tezgumi_part_loads(part, n, first, P, cuts, P + 1, stops, stops_count, blocks, room, fence, P);
}

static void the_loads(void)
{
    static const uint64_t of_blocks[PARTS][P] = {{14, 0, 0}, {0, 17, 5}, {0, 0, 16}};
    static const uint64_t of_fence[PARTS][P] = {{14, 0, 0}, {9, 22, 5}, {0, 0, 16}};
    static const uint64_t none[P] = {0, 0, 0};
    uint64_t blocks[P], fence[P];
    int k, weighed = 1;
    for (k = 0; k < PARTS; k++)
        weighed = load(parts[k], counts[k], firsts[k], P + 1, blocks, P, fence) == TEZGUMI_OK && weigh(blocks, P, of_blocks[k])
            && weigh(fence, P, of_fence[k]) && weighed;
    test("what each part has of a division", weighed);
    same("a load less than blocks", load(back, 3, 9, P + 1, blocks, P - 1, fence), TEZGUMI_BAD_INPUT);
    same("loads of 2^63", load(heavy, 2, 9, P + 1, blocks, P, fence), TEZGUMI_BAD_LOAD);
    test("leave the loads", weigh(blocks, P, of_blocks[2]) && weigh(fence, P, of_fence[2]));
    same("without a fence", load(back, 3, 9, 0, blocks, P, fence), TEZGUMI_OK);
    test("its loads are 0", weigh(blocks, P, of_blocks[2]) && weigh(fence, P, none));
}

static void checked(const char *what, uint64_t bottleneck, size_t stops_count, size_t blocks, int32_t wanted)
{
    static const uint64_t block_loads[P] = {14, 17, 21}, fence_loads[P] = {23, 22, 21};
    same(what, tezgumi_check_division(12, P, bottleneck, cuts, P + 1, stops, stops_count, block_loads, blocks, fence_loads, P),
        wanted);
}

static void the_checks(void)
{
    checked("the division is least", 21, P + 1, P, TEZGUMI_OK);
    checked("a bottleneck of 20", 20, P + 1, P, TEZGUMI_HEAVY);
    checked("a bottleneck of 22", 22, P + 1, P, TEZGUMI_FENCE_LIGHT);
    checked("no fence", 21, 0, P, TEZGUMI_ZERO_FLOOR);
    checked("a stop less", 21, P, P, TEZGUMI_FENCE_COUNT);
    checked("a load less than blocks", 21, P + 1, P - 1, TEZGUMI_BAD_INPUT);
}

static void the_bytes(void)
{
    static const uint32_t bytes[] = {1, 2, 4, 8};
    static const uint64_t wanted[P] = {0, 7, 8}, untouched[P] = {7, 7, 7};
    uint64_t held[P] = {7, 7, 7};
    same("a cut less", tezgumi_part_held(bytes, 4, 5, cuts + 1, P, held, P), TEZGUMI_BAD_INPUT);
    same("an element of number 2^32 - 1", tezgumi_part_held(bytes, 4, UINT32_MAX - 3, cuts, P + 1, held, P), TEZGUMI_BAD_INPUT);
    test("leave the bytes", weigh(held, P, untouched));
    same("bytes of blocks", tezgumi_part_held(bytes, 4, 5, cuts, P + 1, held, P), TEZGUMI_OK);
    test("are 0, 7 and 8", weigh(held, P, wanted));
}

/* Block 0 has 10 bytes on PE 0 and 9 on PE 1, and block 1 has 8 on PE 0. On PEs 1 and 0 they move 10 bytes. */
static const uint64_t table[4] = {10, 9, 8, 0};

static void the_names(void)
{
    static const int64_t untouched[2] = {7, 7};
    uint32_t names[2] = {7, 7};
    int64_t block_prices[2] = {7, 7}, pe_prices[2] = {7, 7};
    uint64_t moved = 7;
    same("a table for more blocks", tezgumi_name(table, 4, 1, names, 1, block_prices, 1, pe_prices, 1, &moved), TEZGUMI_BAD_INPUT);
    same("room for a name less", tezgumi_name(table, 4, 2, names, 1, block_prices, 2, pe_prices, 2, &moved), TEZGUMI_BAD_INPUT);
    test("leave all", names[0] == 7 && names[1] == 7 && moved == 7 && !memcmp(block_prices, untouched, sizeof untouched)
        && !memcmp(pe_prices, untouched, sizeof untouched));
    same("the blocks are named", tezgumi_name(table, 4, 2, names, 2, block_prices, 2, pe_prices, 2, &moved), TEZGUMI_OK);
    test("1 and 0", names[0] == 1 && names[1] == 0 && moved == 10);
    same("and that is right", tezgumi_check_names(table, 4, 2, names, 2, block_prices, 2, pe_prices, 2, moved), TEZGUMI_OK);
}

static void named(const char *what, uint32_t second, int64_t price, uint64_t moved, int32_t wanted)
{
    const uint32_t names[2] = {1, second};
    const int64_t block_prices[2] = {price, 0}, pe_prices[2] = {0, 8};
    same(what, tezgumi_check_names(table, 4, 2, names, 2, block_prices, 2, pe_prices, 2, moved), wanted);
}

static void the_checked_names(void)
{
    static const uint32_t names[1] = {0};
    static const int64_t prices[1] = {0};
    named("names and prices by hand", 0, 2, 10, TEZGUMI_OK);
    named("a name twice", 1, 2, 10, TEZGUMI_NAME_TWICE);
    named("a price of 3", 0, 3, 11, TEZGUMI_PRICE_HIGH);
    named("11 bytes", 0, 2, 11, TEZGUMI_MOVED_WRONG);
    same("no block", tezgumi_check_names(table, 4, 0, names, 0, prices, 0, prices, 0, 0), TEZGUMI_BAD_INPUT);
}

/* All on process 0: within 5 its block is the first run, or the first two. The latter leaves 6 bytes to move. */
static void kept(const char *what, uint64_t load, size_t bytes_len, uint32_t bound, uint64_t limit, int32_t wanted)
{
    const uint64_t loads[4] = {load, 1, 1, 2}, bytes[4] = {9, 1, 2, 4};
    const uint32_t starts[5] = {0, 3, 4, 5, 6}, present[3] = {0, 4, 4}, lower[3] = {0, bound, bound}, upper[3] = {4, 4, 4};
    const uint32_t first[3] = {0, 0, 0};
    uint32_t found[3] = {7, 7, 7};
    same(what, tezgumi_keep_order(loads, 4, bytes, bytes_len, starts, 5, present, 3, lower, 3, upper, 3, first, 3, upper, 3, limit, found, 3),
        wanted);
    test("or leaves the cuts", wanted == TEZGUMI_OK ? found[0] == 0 && found[1] == 2 && found[2] == 4 : found[1] == 7);
}

static void the_kept_cuts(void)
{
    kept("cuts that keep the order", 4, 4, 2, 5, TEZGUMI_OK);
    kept("a size less than runs", 4, 3, 2, 5, TEZGUMI_BAD_INPUT);
    kept("loads of 2^63", TEZGUMI_TOTAL_LOAD - 3, 4, 2, 5, TEZGUMI_BAD_LOAD);
    kept("both", TEZGUMI_TOTAL_LOAD - 3, 3, 2, 5, TEZGUMI_BAD_INPUT);
    kept("a bound beyond the reach of a block", 4, 4, 3, 5, TEZGUMI_BAD_INPUT);
    kept("a bound that begins before a long run", 4, 4, 0, 5, TEZGUMI_BAD_INPUT);
    kept("no cuts within 3", 4, 4, 0, 3, TEZGUMI_BAD_INPUT);
}

int main(void)
{
    the_bounds();
    the_limits();
    the_walks();
    the_refused_walks();
    the_wrong_walks();
    the_ends();
    the_runs();
    the_divisions();
    the_loads();
    the_checks();
    the_bytes();
    the_names();
    the_checked_names();
    the_kept_cuts();
    return failures != 0;
}
