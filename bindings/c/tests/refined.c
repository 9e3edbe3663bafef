/* Decisions within a tolerance: the example of docs/CERTIFICATES.md, each refusal with what it leaves, and each flaw of a forged
 * certificate. The answers were worked out by hand. */
#include "harness.h"
#include <tezgumi.h>

enum { N = 10, P = 3, THOUSANDTHS = 167, STEPS = 64 };

/* The work has gathered in the middle. The least possible load is 12, and 12 + 12 * 167 / 1000 is 14. Of the cuts within 14, in
 * the order of the PEs 2, 0, 1, those at 5 and 7 move 60 bytes, those of element 4, and no others fewer. */
static const uint64_t loads[N] = {1, 1, 1, 2, 7, 8, 6, 2, 1, 1};
static const uint32_t bytes[N] = {10, 10, 10, 20, 60, 90, 70, 20, 10, 10}, places[N] = {2, 2, 2, 2, 0, 0, 0, 1, 1, 1};

typedef struct {
    uint32_t tolerance, keep_order, new_places[N], cuts[P + 1], stops[P + 1], names[P], near_present;
    int64_t block_prices[P], pe_prices[P];
    uint64_t least, bottleneck, moved, step_rises[STEPS];
    uint32_t least_cuts[P + 1], order[P], present[P + 1], step_places[STEPS];
    size_t step_starts[P + 1], stops_count, steps_count;
    size_t new_places_len, cuts_len, names_len, block_prices_len, least_cuts_len, order_len, present_len, starts_len, steps_len;
} output;

static output empty_output(void)
{
    output o;
    memset(&o, 0x5a, sizeof o);
    o.tolerance = THOUSANDTHS;
    o.keep_order = 0;
    o.new_places_len = N;
    o.cuts_len = o.least_cuts_len = o.present_len = o.starts_len = P + 1;
    o.names_len = o.block_prices_len = o.order_len = P;
    o.steps_len = STEPS;
    return o;
}

static int32_t refine(uint32_t procs, uint32_t pes, output *o)
{
    return tezgumi_refine(loads, N, bytes, N, places, N, procs, pes, o->tolerance, o->keep_order, o->new_places, o->new_places_len,
        &o->least, &o->bottleneck, &o->moved, &o->near_present, o->cuts, o->cuts_len, o->stops, P + 1, &o->stops_count, o->names, o->names_len,
        o->block_prices, o->block_prices_len, o->pe_prices, P, o->least_cuts, o->least_cuts_len, o->order, o->order_len,
        o->present, o->present_len, o->step_starts, o->starts_len, o->step_places, o->steps_len, o->step_rises, STEPS,
        &o->steps_count);
}

static int32_t check(uint32_t procs, uint32_t pes, const output *o, uint32_t *at)
{
    return tezgumi_check_refined(loads, N, bytes, N, places, N, procs, pes, o->tolerance, o->keep_order, o->new_places,
        o->new_places_len, o->least, o->bottleneck, o->moved, o->cuts, o->cuts_len, o->stops, o->stops_count, o->names, o->names_len, o->block_prices,
        o->block_prices_len, o->pe_prices, P, o->least_cuts, o->least_cuts_len, o->order, o->order_len, o->present,
        o->present_len, o->step_starts, o->starts_len, o->step_places, o->steps_count, o->step_rises, o->steps_count, &at[0],
        &at[1]);
}

static int are(const uint32_t *found, size_t count, const uint32_t *wanted)
{
    return !memcmp(found, wanted, count * sizeof *found);
}

static output refined(void)
{
    output o = empty_output();
    refine(P, P, &o);
    return o;
}

static void the_example(void)
{
    static const uint32_t cuts[] = {0, 5, 7, 10}, least_cuts[] = {0, 5, 6, 10}, stops[] = {0, 4, 5, 6}, order[] = {2, 0, 1};
    static const uint32_t present[] = {0, 4, 7, 10}, to[N] = {2, 2, 2, 2, 2, 0, 0, 1, 1, 1};
    output o = empty_output();
    uint32_t at[2] = {7, 7};
    same("the example is decided", refine(P, P, &o), TEZGUMI_OK);
    test("near the present cuts", o.near_present == 1 && are(o.cuts, 4, cuts) && are(o.names, 3, order));
    test("12 is least, 14 the heaviest, and 60 bytes move", o.least == 12 && o.bottleneck == 14 && o.moved == 60 && are(o.new_places, N, to));
    test("as the least cuts and the stops prove", are(o.least_cuts, 4, least_cuts) && o.stops_count == 4 && are(o.stops, 4, stops));
    test("in the order in which the PEs stand", are(o.order, 3, order) && are(o.present, 4, present));
    test("there are steps", o.steps_count >= 3 && o.steps_count <= STEPS && o.step_starts[0] == 0 && o.step_starts[P] == o.steps_count);
    same("the decision is right", check(P, P, &o, at), TEZGUMI_OK);
    test("and nothing is told of a place", at[0] == 7 && at[1] == 7);
}

/* The steps are written where there is room for all of them, and otherwise left. */
static void the_room_for_steps(void)
{
    const output all = refined();
    output o = empty_output(), before = o;
    o.steps_len = all.steps_count - 1;
    test("as many rises as places", refine(P, P, &o) == TEZGUMI_BAD_INPUT);
    same("no room for steps", tezgumi_refine(loads, N, bytes, N, places, N, P, P, THOUSANDTHS, 0, o.new_places, N, &o.least,
        &o.bottleneck, &o.moved, &o.near_present, o.cuts, P + 1, o.stops, P + 1, &o.stops_count, o.names, P, o.block_prices, P, o.pe_prices, P,
        o.least_cuts, P + 1, o.order, P, o.present, P + 1, o.step_starts, P + 1, o.step_places, all.steps_count - 1,
        o.step_rises, all.steps_count - 1, &o.steps_count), TEZGUMI_OK);
    test("they are counted", o.steps_count == all.steps_count);
    test("and left", !memcmp(o.step_places, before.step_places, sizeof o.step_places)
        && !memcmp(o.step_rises, before.step_rises, sizeof o.step_rises)
        && !memcmp(o.step_starts, before.step_starts, sizeof o.step_starts));
    test("all else is told", are(o.cuts, 4, all.cuts) && are(o.present, 4, all.present) && o.moved == 60);
    test("behind the steps all is left", all.steps_count < STEPS
        && !memcmp(all.step_places + all.steps_count, before.step_places + all.steps_count,
            (STEPS - all.steps_count) * sizeof *all.step_places));
}

static void the_plan(void)
{
    output o = empty_output(), before = o;
    o.tolerance = 0;
    same("without a tolerance", refine(P, P, &o), TEZGUMI_OK);
    test("it is the plan", o.near_present == 0 && o.moved == 130 && o.least == 12 && are(o.cuts, 4, o.least_cuts));
    test("of which the heaviest has 12, with its fence", o.bottleneck == 12 && o.stops_count == 4);
    test("and order, present cuts and steps are left", o.steps_count == 0 && are(o.order, 3, before.order)
        && are(o.present, 4, before.present) && !memcmp(o.step_starts, before.step_starts, sizeof o.step_starts));
    o = empty_output();
    o.tolerance = 1000;
    same("with a tolerance of all", refine(P, P, &o), TEZGUMI_OK);
    test("nothing moves", o.near_present == 1 && o.moved == 0 && are(o.new_places, N, places));
}

static void refused(const char *what, uint32_t procs, uint32_t pes, output o, int32_t status)
{
    const output before = o;
    same(what, refine(procs, pes, &o), status);
    test("nothing is written", !memcmp(&o, &before, sizeof o));
}

/* A run that is refused leaves the decision as it is, and so is the check of one that is near the present cuts. */
static void run_refused(const char *what, const tezgumi_run *run, tezgumi_refinement *d, int32_t status)
{
    d->least = 5;
    d->near_present = 0;
    same(what, tezgumi_refine_run(run, 0, 0, d), status);
    test("and nothing is written", d->least == 5 && d->decision.cuts[1] == 0);
    d->near_present = 1;
    same("also of a check", tezgumi_check_refinement(run, d, NULL), status);
}

/* Loads that add up to too much, and runs that are in order and past a limit of a tolerance. */
static void the_limits(void)
{
    const uint64_t heaviest[2] = {TEZGUMI_TOTAL_LOAD, 1}, heavy[2] = {1, TEZGUMI_DUMP_LOAD + 1}, light[2] = {1, TEZGUMI_DUMP_LOAD};
    const uint32_t sizes[2] = {1, TEZGUMI_DUMP_STATE_BYTES}, large[2] = {1, TEZGUMI_DUMP_STATE_BYTES + 1}, zero[2] = {0, 0};
    const uint32_t last[2] = {0, TEZGUMI_DUMP_PES};
    const tezgumi_run most = {2, TEZGUMI_DUMP_PES, light, sizes, zero}, too_heavy = {2, 1, heaviest, sizes, zero};
    const tezgumi_run heavy_one = {2, 1, heavy, sizes, zero}, large_one = {2, 1, light, large, zero};
    const tezgumi_run more_pes = {2, TEZGUMI_DUMP_PES + 1, light, sizes, last};
    tezgumi_refinement d;
    tezgumi_refinement_room(&d, 2, TEZGUMI_DUMP_PES);
    same("the greatest numbers", tezgumi_refine_run(&most, 0, 0, &d), TEZGUMI_OK);
    same("are right", tezgumi_check_refinement(&most, &d, NULL), TEZGUMI_OK);
    tezgumi_refinement_free(&d);
    tezgumi_refinement_room(&d, 2, 1);
    run_refused("loads that add up to 2^63", &too_heavy, &d, TEZGUMI_BAD_LOAD);
    run_refused("a load of 2^47", &heavy_one, &d, TEZGUMI_TOO_LARGE);
    run_refused("a size of 2^20 and one more", &large_one, &d, TEZGUMI_TOO_LARGE);
    run_refused("257 PEs before", &more_pes, &d, TEZGUMI_TOO_LARGE);
    same("too great a tolerance is said before", tezgumi_refine_run(&heavy_one, 1001, 0, &d), TEZGUMI_BAD_TOLERANCE);
    tezgumi_refinement_free(&d);
}

/* 65,537 elements and 257 PEs, for which tezgumi_refinement_room has no room: the exports refuse them too. */
static void more_than_there_is_room_for(void)
{
    enum { MANY = TEZGUMI_DUMP_ELEMENTS + 1, PES = TEZGUMI_DUMP_PES + 1, MORE = 6 * MANY };
    static uint64_t no_loads[MANY], rises[1];
    static uint32_t words[MANY], room[MORE];
    static int64_t prices[2 * PES];
    static size_t starts[PES + 1];
    uint64_t least = 5, bottleneck = 5, moved = 5;
    uint32_t near_present = 5;
    size_t count = 5, steps = 5;
    int k;
    for (k = 0; k < 2; k++) {
        const size_t n = k == 0 ? MANY : 2, p = k == 0 ? 2 : PES;
        same(k == 0 ? "65,537 elements" : "257 PEs",
            tezgumi_refine(no_loads, n, words, n, words, n, 1, (uint32_t)p, 0, 0, room, n, &least, &bottleneck, &moved, &near_present, room + MANY,
                p + 1, room + 2 * MANY, p + 1, &count, room + 3 * MANY, p, prices, p, prices + PES, p, room + 4 * MANY, p + 1, room + 5 * MANY, p,
                room + 5 * MANY + PES, p + 1, starts, p + 1, room, 0, rises, 0, &steps),
            TEZGUMI_TOO_LARGE);
        test("and nothing is written", least == 5 && bottleneck == 5 && moved == 5 && near_present == 5 && count == 5 && steps == 5);
    }
}

static void the_refusals(void)
{
    output o = empty_output();
    uint32_t at[2] = {7, 7};
    o.tolerance = 1001;
    refused("too great a tolerance", P, P, o, TEZGUMI_BAD_TOLERANCE);
    refused("before all else", 0, P, o, TEZGUMI_BAD_TOLERANCE);
    same("also of a check", check(0, P, &o, at), TEZGUMI_BAD_TOLERANCE);
    refused("no PE before", 0, P, empty_output(), TEZGUMI_BAD_INPUT);
    refused("places that are no PEs", 2, P, empty_output(), TEZGUMI_BAD_INPUT);
    refused("no PE after", P, 0, empty_output(), TEZGUMI_BAD_INPUT);
    o = refined();
    same("also of a check", check(P, 0, &o, at), TEZGUMI_BAD_INPUT);
    test("which tells of no place", at[0] == 7 && at[1] == 7);
#define SHORT(list) o = empty_output(); o.list--; refused(#list, P, P, o, TEZGUMI_BAD_INPUT)
    SHORT(new_places_len);
    SHORT(cuts_len);
    SHORT(names_len);
    SHORT(block_prices_len);
    SHORT(least_cuts_len);
    SHORT(order_len);
    SHORT(present_len);
    SHORT(starts_len);
    SHORT(steps_len);
    the_limits();
    more_than_there_is_room_for();
}

/* The check of a claim with one number changed answers this flaw, and what it names. */
static void flawed(const char *what, const output *o, int32_t flaw, uint32_t first, uint32_t second)
{
    uint32_t at[2] = {7, 7};
    same(what, check(P, P, o, at), flaw);
    if (at[0] != first || at[1] != second) printf("at %u and %u: ", at[0], at[1]);
    test("and where", at[0] == first && at[1] == second);
}

#define FORGED(change, flaw, first, second) \
    do { output o = refined(); o.change; flawed(#flaw, &o, flaw, first, second); } while (0)

/* The number of the step of block 1 at place 5. */
static size_t step_at_five(void)
{
    const output o = refined();
    size_t s = o.step_starts[1];
    while (s < o.step_starts[2] && o.step_places[s] != 5) s++;
    test("block 1 has a step at 5, of 60 bytes", s < o.step_starts[2] && o.step_rises[s] == 60);
    return s;
}

static void the_flaws(void)
{
    const size_t five = step_at_five();
    FORGED(least_cuts_len = 3, TEZGUMI_CUT_COUNT, 0, 0);
    FORGED(least_cuts[0] = 1, TEZGUMI_CUT_START, 0, 0);
    FORGED(least_cuts[1] = 7, TEZGUMI_CUT_ORDER, 0, 0);
    FORGED(least_cuts[3] = 9, TEZGUMI_CUT_END, 0, 0);
    FORGED(least = 11, TEZGUMI_HEAVY, 0, 0);
    FORGED(least_cuts[2] = 7, TEZGUMI_HEAVY, 1, 0);
    FORGED(stops_count = 3, TEZGUMI_FENCE_COUNT, 0, 0);
    FORGED(stops[0] = 1, TEZGUMI_FENCE_START, 0, 0);
    FORGED(stops[1] = 6, TEZGUMI_FENCE_ORDER, 0, 0);
    FORGED(stops[3] = 10, TEZGUMI_FENCE_END, 0, 0);
    FORGED(least = 13, TEZGUMI_FENCE_LIGHT, 1, 0);
    FORGED(stops_count = 0, TEZGUMI_ZERO_FLOOR, 0, 0);
    FORGED(order_len = 2, TEZGUMI_ORDER_COUNT, 0, 0);
    FORGED(order[0] = 3, TEZGUMI_ORDER_RANGE, 0, 0);
    FORGED(order[0] = 0, TEZGUMI_ORDER_TWICE, 0, 0);
    FORGED(cuts_len = 3, TEZGUMI_NEAR_COUNT, 0, 0);
    FORGED(cuts[1] = 8, TEZGUMI_NO_DIVISION, 0, 0);
    FORGED(cuts[2] = 8, TEZGUMI_PAST_LIMIT, 1, 0);
    FORGED(tolerance = 166, TEZGUMI_PAST_LIMIT, 1, 0);
    FORGED(starts_len = 3, TEZGUMI_HEIGHT_COUNT, 0, 0);
    FORGED(starts_len = 0, TEZGUMI_HEIGHT_COUNT, 0, 0);
    FORGED(step_places[0] = 0, TEZGUMI_HEIGHT_START, 0, 0);
    FORGED(step_rises[five] = 61, TEZGUMI_STEEP, 0, 5);
    FORGED(step_rises[five] = 59, TEZGUMI_STEEP, 1, 7);
    FORGED(cuts[2] = 6, TEZGUMI_HEIGHT_LOW, 0, 0);
    FORGED(step_rises[o.step_starts[2]] = 59, TEZGUMI_HEIGHT_LOW, 0, 0);
    FORGED(names_len = 2, TEZGUMI_NAME_COUNT, 0, 0);
    FORGED(names[0] = 3, TEZGUMI_NAME_RANGE, 0, 0);
    FORGED(names[0] = 0, TEZGUMI_NAME_TWICE, 0, 0);
    FORGED(block_prices_len = 2, TEZGUMI_PRICE_COUNT, 0, 0);
    FORGED(pe_prices[0] += 1000, TEZGUMI_PRICE_HIGH, 0, 0);
    FORGED(block_prices[0]--, TEZGUMI_PRICE_GAP, 0, 0);
    FORGED(moved = 61, TEZGUMI_MOVED_WRONG, 0, 0);
    FORGED(new_places[0] = 0, TEZGUMI_PLACES_WRONG, 0, 0);
    FORGED(new_places_len = 9, TEZGUMI_PLACES_WRONG, 0, 0);
}

/* The order and the present cuts are those of the run, and the bottleneck is that of the decision. */
static void the_order_and_the_bottleneck(void)
{
    FORGED(present[1] = 1, TEZGUMI_ORDER_WRONG, 0, 0);
    FORGED(present_len = 0, TEZGUMI_ORDER_WRONG, 0, 0);
    FORGED(bottleneck = 0, TEZGUMI_BOTTLENECK_WRONG, 0, 0);
    FORGED(bottleneck = 13, TEZGUMI_BOTTLENECK_WRONG, 0, 0);
    FORGED(bottleneck = 15, TEZGUMI_BOTTLENECK_WRONG, 0, 0);
    FORGED(bottleneck = 999, TEZGUMI_BOTTLENECK_WRONG, 0, 0);
}

/* A claim that is right for the order 1, 0, in which all elements move, where two elements move at most in the present one; and
 * one for elements that stand in no order. */
static void another_order(void)
{
    static const uint64_t four[4] = {1, 1, 1, 1}, rises[1] = {20};
    static const uint32_t ten[4] = {10, 10, 10, 10}, together[4] = {0, 0, 1, 1}, apart[4] = {0, 1, 0, 1}, to[4] = {0, 0, 0, 0};
    static const uint32_t cuts[3] = {0, 0, 4}, stops[3] = {0, 1, 2}, names[2] = {1, 0}, least_cuts[3] = {0, 2, 4}, places_of[1] = {0};
    static const int64_t block_prices[2] = {0, 20}, no_prices[2] = {0, 0};
    static const size_t starts[3] = {0, 0, 1};
    uint32_t at[2];
    int k;
    for (k = 0; k < 2; k++)
        same(k == 0 ? "another order" : "no order", tezgumi_check_refined(four, 4, ten, 4, k == 0 ? together : apart, 4, 2, 2, 1000, 0, to, 4,
            2, 4, 20, cuts, 3, stops, 3, names, 2, block_prices, 2, no_prices, 2, least_cuts, 3, names, 2, least_cuts, 3, starts, 3,
            places_of, 1, rises, 1, &at[0], &at[1]), TEZGUMI_ORDER_WRONG);
}

/* Four elements of which the heaviest PE has 8 of 11 units: the limit is 7, so that element 0 is alone in its block. In the order
 * 0, 1, 2 element 1 then moves, of 37 bytes. With the names 1, 0, 2 elements 0 and 2 move, of 2 and 15. */
static void the_order_is_kept(void)
{
    static const uint64_t four[4] = {6, 2, 1, 2};
    static const uint32_t sizes[4] = {2, 37, 15, 6}, stands[4] = {0, 0, 1, 2}, to[4] = {0, 1, 1, 2}, order[3] = {0, 1, 2};
    static const uint32_t cuts[4] = {0, 1, 3, 4}, others[3] = {1, 0, 2}, apart[4] = {0, 1, 0, 2};
    static const int64_t no_prices[3] = {0, 0, 0};
    const tezgumi_run run = {4, 3, four, sizes, stands}, scattered = {4, 3, four, sizes, apart};
    tezgumi_refinement d;
    tezgumi_refinement_room(&d, 4, 3);
    same("decided anew", tezgumi_refine_run(&run, 300, 0, &d), TEZGUMI_OK);
    test("PEs change places", d.keep_order == 0 && d.decision.moved == 17 && are(d.decision.names, 3, others));
    same("which is right", tezgumi_check_refinement(&run, &d, NULL), TEZGUMI_OK);
    d.keep_order = 1;
    same("but does not keep the order", tezgumi_check_refinement(&run, &d, NULL), TEZGUMI_NAMES_NOT_ORDER);
    same("decided in order", tezgumi_refine_run(&run, 300, 1, &d), TEZGUMI_OK);
    test("the order is kept", d.keep_order == 1 && d.near_present == 1 && d.least == 6 && d.decision.bottleneck == 6);
    test("element 1 moves", d.decision.moved == 37 && are(d.decision.cuts, 4, cuts) && are(d.decision.new_places, 4, to));
    test("the names are the order", are(d.decision.names, 3, order) && are(d.order, 3, order));
    test("without prices", !memcmp(d.decision.block_prices, no_prices, sizeof no_prices) && !memcmp(d.decision.pe_prices, no_prices, sizeof no_prices));
    same("which is right", tezgumi_check_refinement(&run, &d, NULL), TEZGUMI_OK);
    d.decision.block_prices[0] = 5;
    same("whatever the prices", tezgumi_check_refinement(&run, &d, NULL), TEZGUMI_OK);
    d.decision.moved = 17;
    same("other bytes", tezgumi_check_refinement(&run, &d, NULL), TEZGUMI_MOVED_WRONG);
    d.decision.moved = 37;
    d.decision.new_places[1] = 0;
    same("another place", tezgumi_check_refinement(&run, &d, NULL), TEZGUMI_PLACES_WRONG);
    same("any number but 0", tezgumi_refine_run(&run, 300, UINT32_MAX, &d), TEZGUMI_OK);
    test("keeps the order", d.decision.moved == 37);
    same("where there is none", tezgumi_refine_run(&scattered, 300, 1, &d), TEZGUMI_OK);
    test("it is the plan", d.near_present == 0 && d.decision.bottleneck == 6);
    same("which is right", tezgumi_check_refinement(&scattered, &d, NULL), TEZGUMI_OK);
    tezgumi_refinement_free(&d);
}

/* A plan is right with its own least load and cuts alone, and does not pass for a decision that keeps the order of the PEs. */
static void the_plan_is_checked(void)
{
    const tezgumi_run run = {N, P, loads, bytes, places};
    tezgumi_refinement d;
    uint32_t at[4] = {7, 7, 7, 7}, *odd = (uint32_t *)(uintptr_t)((uintptr_t)at + 1);
    tezgumi_refinement_room(&d, N, P);
    same("the plan", tezgumi_refine_run(&run, 0, 0, &d), TEZGUMI_OK);
    same("is right", tezgumi_check_refinement(&run, &d, at), TEZGUMI_OK);
    test("and names nothing", at[0] == 0 && at[1] == 0 && at[2] == 7);
    d.least = 11;
    same("another least load", tezgumi_check_refinement(&run, &d, at), TEZGUMI_LEAST_WRONG);
    d.least = 12;
    d.least_cuts[1] = 4;
    same("other least cuts", tezgumi_check_refinement(&run, &d, at), TEZGUMI_LEAST_WRONG);
    d.least_cuts[1] = 5;
    d.decision.bottleneck = 11;
    same("another bottleneck", tezgumi_check_refinement(&run, &d, at), TEZGUMI_HEAVY);
    d.decision.bottleneck = 12;
    d.keep_order = 1;
    same("for a decision in order", tezgumi_check_refinement(&run, &d, at), TEZGUMI_ORDER_WRONG);
    d.keep_order = 0;
    same("a place that is misaligned", tezgumi_check_refinement(&run, &d, odd), TEZGUMI_BAD_INPUT);
    same("and one in a list", tezgumi_check_refinement(&run, &d, d.decision.cuts), TEZGUMI_BAD_INPUT);
    same("near the present cuts", tezgumi_refine_run(&run, THOUSANDTHS, 0, &d), TEZGUMI_OK);
    same("a place that is misaligned", tezgumi_check_refinement(&run, &d, odd), TEZGUMI_BAD_INPUT);
    same("and one in a list", tezgumi_check_refinement(&run, &d, d.order), TEZGUMI_BAD_INPUT);
    test("which is left", d.order[0] == 2 && d.order[1] == 0);
    d.decision.bottleneck = 999;
    same("another bottleneck", tezgumi_check_refinement(&run, &d, at), TEZGUMI_BOTTLENECK_WRONG);
    tezgumi_refinement_free(&d);
}

/* The functions of the header on the same. */
static void the_struct(void)
{
    const tezgumi_run run = {N, P, loads, bytes, places};
    const output all = refined();
    tezgumi_refinement d;
    uint32_t at[2];
    same("room", tezgumi_refinement_room(&d, N, P), TEZGUMI_OK);
    same("decided", tezgumi_refine_run(&run, THOUSANDTHS, 0, &d), TEZGUMI_OK);
    test("as by the export", d.least == 12 && d.decision.moved == 60 && are(d.decision.cuts, 4, all.cuts) && d.near_present == 1);
    test("the heaviest block has 14", d.decision.bottleneck == 14 && d.tolerance == THOUSANDTHS);
    same("checked", tezgumi_check_refinement(&run, &d, at), TEZGUMI_OK);
    d.order[0] = 0;
    same("its flaw", tezgumi_check_refinement(&run, &d, NULL), TEZGUMI_ORDER_TWICE);
    d.steps_room = 0;
    same("with room for no step", tezgumi_refine_run(&run, THOUSANDTHS, 0, &d), TEZGUMI_OK);
    test("it gets more", d.steps_room == all.steps_count && d.steps_count == all.steps_count);
    same("checked again", tezgumi_check_refinement(&run, &d, at), TEZGUMI_OK);
    same("without a tolerance", tezgumi_refine_run(&run, 0, 0, &d), TEZGUMI_OK);
    test("it is the plan", d.near_present == 0 && d.decision.bottleneck == 12 && d.decision.moved == 130);
    same("which is right", tezgumi_check_refinement(&run, &d, at), TEZGUMI_OK);
    same("too great a tolerance", tezgumi_refine_run(&run, 1001, 0, &d), TEZGUMI_BAD_TOLERANCE);
    d.present = d.least_cuts;
    same("lists that overlap", tezgumi_refine_run(&run, THOUSANDTHS, 0, &d), TEZGUMI_BAD_INPUT);
    same("no run", tezgumi_refine_run(NULL, THOUSANDTHS, 0, &d), TEZGUMI_BAD_INPUT);
    same("no refinement", tezgumi_refine_run(&run, THOUSANDTHS, 0, NULL), TEZGUMI_BAD_INPUT);
    tezgumi_refinement_free(&d);
    test("all is given back", !d.room && !d.steps && !d.decision.room);
    tezgumi_refinement_free(NULL);
    same("room for too many PEs", tezgumi_refinement_room(&d, N, TEZGUMI_PES + 1), TEZGUMI_BAD_INPUT);
    same("room for none", tezgumi_refinement_room(&d, TEZGUMI_ELEMENTS, 0), TEZGUMI_BAD_INPUT);
    same("room for 257 PEs", tezgumi_refinement_room(&d, N, TEZGUMI_DUMP_PES + 1), TEZGUMI_TOO_LARGE);
    same("room for 65,537 elements", tezgumi_refinement_room(&d, TEZGUMI_DUMP_ELEMENTS + 1, P), TEZGUMI_TOO_LARGE);
    test("nothing to free", !d.room && !d.steps && !d.decision.room);
    same("room for nothing", tezgumi_refinement_room(NULL, N, P), TEZGUMI_BAD_INPUT);
}

/* Runs without elements, of loads 0, and with an element that is heavier than all others together. */
static void few_and_odd(void)
{
    const uint64_t zero[4] = {0, 0, 0, 0}, giant[4] = {1, 100, 1, 1};
    const uint32_t size[4] = {5, 6, 7, 8}, stands[4] = {1, 1, 0, 0}, apart[4] = {0, 1, 0, 1};
    const tezgumi_run none = {0, 2, NULL, NULL, NULL}, idle = {4, 2, zero, size, stands}, heavy = {4, 2, giant, size, stands};
    const tezgumi_run scattered = {4, 2, giant, size, apart};
    tezgumi_refinement d;
    tezgumi_refinement_room(&d, 0, 2);
    same("no elements", tezgumi_refine_run(&none, 20, 0, &d), TEZGUMI_OK);
    test("move nothing", d.decision.moved == 0 && d.least == 0);
    same("and that is right", tezgumi_check_refinement(&none, &d, NULL), TEZGUMI_OK);
    tezgumi_refinement_free(&d);
    tezgumi_refinement_room(&d, 4, 2);
    same("no loads", tezgumi_refine_run(&idle, 0, 0, &d), TEZGUMI_OK);
    test("all stay", d.decision.moved == 0 && d.least == 0 && are(d.decision.new_places, 4, stands));
    same("and that is right", tezgumi_check_refinement(&idle, &d, NULL), TEZGUMI_OK);
    same("a giant", tezgumi_refine_run(&heavy, 10, 0, &d), TEZGUMI_OK);
    test("stays where it is", d.decision.moved == 0 && d.least == 101 && are(d.decision.new_places, 4, stands));
    same("and that is right", tezgumi_check_refinement(&heavy, &d, NULL), TEZGUMI_OK);
    same("scattered elements", tezgumi_refine_run(&scattered, 1000, 0, &d), TEZGUMI_OK);
    test("are planned", d.near_present == 0 && d.decision.bottleneck == 101);
    same("and that is right", tezgumi_check_refinement(&scattered, &d, NULL), TEZGUMI_OK);
    tezgumi_refinement_free(&d);
}

int main(void)
{
    the_example();
    the_room_for_steps();
    the_plan();
    the_refusals();
    the_flaws();
    the_order_and_the_bottleneck();
    another_order();
    the_order_is_kept();
    the_plan_is_checked();
    the_struct();
    few_and_odd();
    return failures != 0;
}
