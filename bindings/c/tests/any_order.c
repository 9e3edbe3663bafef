/* Decisions in any order of the PEs: the example of docs/BINDINGS.md, each refusal with what it leaves, each flaw of a forged
 * certificate, and small runs beside all cuts and all names. The other answers were worked out by hand. */
#include "harness.h"
#include <tezgumi_any_order.h>

enum { N = 4, P = 3, STARTS = 2 * P + 3, THOUSANDTHS = 300, LEVELS = 64 };

/* The least possible load is 6, and 6 + 6 * 300 / 1000 is 7. In the present order at least 37 bytes move, by other names of the same
 * cuts 17. Cuts 0, 1, 2, 4 for the PEs 2, 0, 1 move elements 0 and 3, of 2 and 6 bytes. */
static const uint64_t loads[N] = {6, 2, 1, 2};
static const uint32_t bytes[N] = {2, 37, 15, 6}, places[N] = {0, 0, 1, 2};

typedef struct {
    uint32_t tolerance, new_places[N], cuts[P + 1], stops[P + 1], names[P], near_present, reordered;
    int64_t block_prices[P], pe_prices[P];
    uint64_t least, bottleneck, moved, step_rises[LEVELS], level_bytes[LEVELS];
    uint32_t least_cuts[P + 1], order[P], present[P + 1], step_places[LEVELS], level_places[LEVELS];
    size_t step_starts[P + 1], level_starts[STARTS], stops_count, steps_count, levels_count;
    size_t new_places_len, cuts_len, names_len, least_cuts_len, order_len, starts_len, levels_len, bytes_len;
} output;

static output empty_output(void)
{
    output o;
    memset(&o, 0x5a, sizeof o);
    o.tolerance = THOUSANDTHS;
    o.new_places_len = N;
    o.cuts_len = o.least_cuts_len = P + 1;
    o.names_len = o.order_len = P;
    o.starts_len = STARTS;
    o.levels_len = o.bytes_len = LEVELS;
    return o;
}

static int32_t reorder(uint32_t procs, uint32_t pes, output *o)
{
    return tezgumi_reorder(loads, N, bytes, N, places, N, procs, pes, o->tolerance, o->new_places, o->new_places_len, &o->least,
        &o->bottleneck, &o->moved, &o->near_present, &o->reordered, o->cuts, o->cuts_len, o->stops, P + 1, &o->stops_count, o->names,
        o->names_len, o->block_prices, P, o->pe_prices, P, o->least_cuts, o->least_cuts_len, o->order, o->order_len, o->present, P + 1,
        o->step_starts, P + 1, o->step_places, LEVELS, o->step_rises, LEVELS, &o->steps_count, o->level_starts, o->starts_len,
        o->level_places, o->levels_len, o->level_bytes, o->bytes_len, &o->levels_count);
}

static int32_t check(uint32_t procs, uint32_t pes, const output *o, uint32_t *at)
{
    return tezgumi_check_reordered(loads, N, bytes, N, places, N, procs, pes, o->tolerance, o->new_places, o->new_places_len, o->least,
        o->bottleneck, o->moved, o->cuts, o->cuts_len, o->stops, o->stops_count, o->names, o->names_len, o->block_prices, P,
        o->pe_prices, P, o->least_cuts, o->least_cuts_len, o->level_starts, o->starts_len, o->level_places, o->levels_count,
        o->level_bytes, o->bytes_len, &at[0], &at[1], &at[2]);
}

static int are(const uint32_t *found, size_t count, const uint32_t *wanted)
{
    return !memcmp(found, wanted, count * sizeof *found);
}

static output reordered(void)
{
    output o = empty_output();
    reorder(P, P, &o);
    o.bytes_len = o.levels_count;
    return o;
}

static void the_example(void)
{
    static const uint32_t cuts[] = {0, 1, 2, 4}, names[] = {2, 0, 1}, to[N] = {2, 0, 1, 1}, least_cuts[] = {0, 1, 4, 4};
    static const int64_t no_prices[P] = {0, 0, 0};
    output o = empty_output();
    const output before = o;
    uint32_t at[3] = {7, 7, 7};
    same("the example is decided", reorder(P, P, &o), TEZGUMI_OK);
    test("in another order", o.reordered == 1 && o.near_present == 0 && are(o.cuts, 4, cuts) && are(o.names, 3, names));
    test("6 is least and the heaviest, and 8 bytes move", o.least == 6 && o.bottleneck == 6 && o.moved == 8 && are(o.new_places, N, to));
    test("as the least cuts and the stops prove", are(o.least_cuts, 4, least_cuts) && o.stops_count == 4);
    test("without prices", !memcmp(o.block_prices, no_prices, sizeof no_prices) && !memcmp(o.pe_prices, no_prices, sizeof no_prices));
    test("and without heights", o.steps_count == 0 && !memcmp(o.order, before.order, sizeof o.order)
        && !memcmp(o.present, before.present, sizeof o.present) && !memcmp(o.step_starts, before.step_starts, sizeof o.step_starts)
        && !memcmp(o.step_places, before.step_places, sizeof o.step_places));
    test("there are levels", o.levels_count >= 4 && o.levels_count <= LEVELS && o.level_starts[0] == 0 && o.level_starts[STARTS - 1] == o.levels_count);
    o.bytes_len = o.levels_count;
    same("the decision is right", check(P, P, &o, at), TEZGUMI_OK);
    test("and nothing is told of a place", at[0] == 7 && at[1] == 7 && at[2] == 7);
}

/* The levels are written where there is room for all of them, and otherwise left. */
static void the_room_for_levels(void)
{
    const output all = reordered();
    output o = empty_output();
    const output before = o;
    o.levels_len = o.bytes_len = all.levels_count - 1;
    same("no room for levels", reorder(P, P, &o), TEZGUMI_OK);
    test("they are counted", o.levels_count == all.levels_count && o.reordered == 1);
    test("and left", !memcmp(o.level_places, before.level_places, sizeof o.level_places)
        && !memcmp(o.level_bytes, before.level_bytes, sizeof o.level_bytes)
        && !memcmp(o.level_starts, before.level_starts, sizeof o.level_starts));
    test("all else is told", are(o.cuts, 4, all.cuts) && are(o.names, 3, all.names) && o.moved == 8);
    test("behind the levels all is left", all.levels_count < LEVELS
        && !memcmp(all.level_places + all.levels_count, before.level_places + all.levels_count,
            (LEVELS - all.levels_count) * sizeof *all.level_places));
}

/* A refusal writes nothing. */
static void refused(const char *what, uint32_t procs, uint32_t pes, output o, int32_t status)
{
    const output before = o;
    same(what, reorder(procs, pes, &o), status);
    test("and nothing is written", !memcmp(&o, &before, sizeof o));
}

static void the_refusals(void)
{
    output o = empty_output();
    uint32_t at[3] = {7, 7, 7};
    o.tolerance = 1001;
    refused("too great a tolerance", 0, P, o, TEZGUMI_BAD_TOLERANCE);
    same("also of a check", check(0, P, &o, at), TEZGUMI_BAD_TOLERANCE);
    refused("no PE before", 0, P, empty_output(), TEZGUMI_BAD_INPUT);
    refused("places that are no PEs", 2, P, empty_output(), TEZGUMI_BAD_INPUT);
    refused("no PE after", P, 0, empty_output(), TEZGUMI_BAD_INPUT);
    refused("257 PEs", TEZGUMI_DUMP_PES + 1, P, empty_output(), TEZGUMI_TOO_LARGE);
    o = reordered();
    same("also of a check", check(P, 0, &o, at), TEZGUMI_BAD_INPUT);
    test("which tells of no place", at[0] == 7 && at[1] == 7 && at[2] == 7);
#define SHORT(list) o = empty_output(); o.list--; refused(#list, P, P, o, TEZGUMI_BAD_INPUT)
    SHORT(new_places_len);
    SHORT(cuts_len);
    SHORT(names_len);
    SHORT(least_cuts_len);
    SHORT(order_len);
    SHORT(starts_len);
    SHORT(levels_len);
}

/* The check of a claim with one number changed answers this flaw, and what it names. */
static void flawed(const char *what, const output *o, int32_t flaw, uint32_t first, uint32_t second, uint32_t third)
{
    uint32_t at[3] = {7, 7, 7};
    same(what, check(P, P, o, at), flaw);
    if (at[0] != first || at[1] != second || at[2] != third) printf("at %u, %u and %u: ", at[0], at[1], at[2]);
    test("and where", at[0] == first && at[1] == second && at[2] == third);
}

#define FORGED(change, flaw, first, second, third) \
    do { output o = reordered(); o.change; flawed(#flaw, &o, flaw, first, second, third); } while (0)

/* The number of the level of row r that begins at this place and has so many bytes. */
static size_t level_of(uint32_t row, uint32_t place, uint64_t bytes_there)
{
    const output o = reordered();
    size_t s = o.level_starts[row];
    while (s < o.level_starts[row + 1] && o.level_places[s] != place) s++;
    test("there is such a level", s < o.level_starts[row + 1] && o.level_bytes[s] == bytes_there);
    return s;
}

static void the_flaws(void)
{
    /* One block that ends at 1 and leaves PE 0 free moves 2 bytes; all blocks move 8. */
    const size_t one = level_of(P + 1 + 1, 1, 2), all = level_of(P, 4, 8);
    FORGED(least_cuts_len = 3, TEZGUMI_CUT_COUNT, 0, 0, 0);
    FORGED(least_cuts[0] = 1, TEZGUMI_CUT_START, 0, 0, 0);
    FORGED(least = 5, TEZGUMI_HEAVY, 0, 0, 0);
    FORGED(least_cuts[1] = 2, TEZGUMI_HEAVY, 0, 0, 0);
    FORGED(stops_count = 3, TEZGUMI_FENCE_COUNT, 0, 0, 0);
    FORGED(least = 7, TEZGUMI_FENCE_LIGHT, 1, 0, 0);
    FORGED(stops_count = 0, TEZGUMI_ZERO_FLOOR, 0, 0, 0);
    FORGED(names_len = 2, TEZGUMI_NAME_COUNT, 0, 0, 0);
    FORGED(names[0] = 3, TEZGUMI_NAME_RANGE, 0, 0, 0);
    FORGED(names[0] = 0, TEZGUMI_NAME_TWICE, 0, 0, 0);
    FORGED(cuts_len = 3, TEZGUMI_NEAR_COUNT, 0, 0, 0);
    FORGED(cuts[1] = 3, TEZGUMI_NO_DIVISION, 0, 0, 0);
    FORGED(cuts[1] = 2, TEZGUMI_PAST_LIMIT, 0, 0, 0);
    FORGED(starts_len--, TEZGUMI_ROW_COUNT, 0, 0, 0);
    FORGED(starts_len = P + 1, TEZGUMI_ROW_COUNT, 0, 0, 0);
    FORGED(starts_len = 0, TEZGUMI_ROW_COUNT, 0, 0, 0);
    FORGED(level_places[0] = 0, TEZGUMI_BOUND_START, 0, 0, 0);
    FORGED(level_bytes[one] = 3, TEZGUMI_BOUND_STEEP, 0, 0, 1);
    FORGED(level_bytes[all] = 9, TEZGUMI_BOUND_STEEP, 2, 2, 4);
    FORGED(level_bytes[all] = 7, TEZGUMI_BOUND_LOW, 0, 0, 0);
    FORGED(levels_count = 0, TEZGUMI_BOUND_LOW, 0, 0, 0);
    FORGED(level_starts[P] = SIZE_MAX, TEZGUMI_BOUND_LOW, 0, 0, 0);
    FORGED(bottleneck = 7, TEZGUMI_BOTTLENECK_WRONG, 0, 0, 0);
    FORGED(moved = 9, TEZGUMI_MOVED_WRONG, 0, 0, 0);
    FORGED(new_places[3] = 2, TEZGUMI_PLACES_WRONG, 0, 0, 0);
    FORGED(new_places_len = 3, TEZGUMI_PLACES_WRONG, 0, 0, 0);
    FORGED(pe_prices[0] = 5, TEZGUMI_OK, 7, 7, 7);
}

/* The functions of the header on the same. */
static void the_struct(void)
{
    static const uint32_t apart[N] = {0, 1, 0, 2};
    const tezgumi_run run = {N, P, loads, bytes, places}, scattered = {N, P, loads, bytes, apart};
    const output all = reordered();
    tezgumi_reordering d;
    uint32_t at[4] = {7, 7, 7, 7};
    same("room", tezgumi_reordering_room(&d, N, P), TEZGUMI_OK);
    same("decided", tezgumi_reorder_run(&run, THOUSANDTHS, &d), TEZGUMI_OK);
    test("as by the export", d.reordered == 1 && d.refinement.least == 6 && d.refinement.decision.moved == 8
        && are(d.refinement.decision.cuts, 4, all.cuts) && d.refinement.tolerance == THOUSANDTHS && d.refinement.keep_order == 0);
    same("checked", tezgumi_check_reordering(&run, &d, at), TEZGUMI_OK);
    test("which writes no further", at[3] == 7);
    same("not for other places, where the bounds are too steep", tezgumi_check_reordering(&scattered, &d, NULL), TEZGUMI_BOUND_STEEP);
    d.refinement.decision.names[0] = 0;
    same("its flaw", tezgumi_check_reordering(&run, &d, at), TEZGUMI_NAME_TWICE);
    d.levels_room = 0;
    same("with room for no level", tezgumi_reorder_run(&run, THOUSANDTHS, &d), TEZGUMI_OK);
    test("it gets more", d.levels_room == all.levels_count && d.levels_count == all.levels_count);
    same("checked again", tezgumi_check_reordering(&run, &d, NULL), TEZGUMI_OK);
    same("places in a list", tezgumi_check_reordering(&run, &d, d.level_places), TEZGUMI_BAD_INPUT);
    same("scattered elements", tezgumi_reorder_run(&scattered, 1000, &d), TEZGUMI_OK);
    test("are planned", d.reordered == 0 && d.refinement.near_present == 0 && d.levels_count == 0);
    same("and that is right", tezgumi_check_reordering(&scattered, &d, at), TEZGUMI_OK);
    d.refinement.keep_order = 1;
    same("no order is kept", tezgumi_check_reordering(&scattered, &d, at), TEZGUMI_BAD_INPUT);
    same("too great a tolerance", tezgumi_reorder_run(&run, 1001, &d), TEZGUMI_BAD_TOLERANCE);
    d.level_starts = d.refinement.step_starts;
    same("lists that overlap", tezgumi_reorder_run(&run, THOUSANDTHS, &d), TEZGUMI_BAD_INPUT);
    same("no run", tezgumi_reorder_run(NULL, THOUSANDTHS, &d), TEZGUMI_BAD_INPUT);
    same("no decision", tezgumi_reorder_run(&run, THOUSANDTHS, NULL), TEZGUMI_BAD_INPUT);
    tezgumi_reordering_free(&d);
    test("all is given back", !d.room && !d.levels && !d.refinement.room);
    tezgumi_reordering_free(NULL);
    same("room for 257 PEs", tezgumi_reordering_room(&d, N, TEZGUMI_DUMP_PES + 1), TEZGUMI_TOO_LARGE);
    same("room for no PE", tezgumi_reordering_room(&d, N, 0), TEZGUMI_BAD_INPUT);
    same("room for nothing", tezgumi_reordering_room(NULL, N, P), TEZGUMI_BAD_INPUT);
}

/* The fewest bytes that cuts within a limit move with any names of three blocks, by trying all of them. */
static uint64_t fewest_of_all(const tezgumi_run *run, uint64_t limit)
{
    static const uint32_t orders[6][3] = {{0, 1, 2}, {0, 2, 1}, {1, 0, 2}, {1, 2, 0}, {2, 0, 1}, {2, 1, 0}};
    uint64_t fewest = UINT64_MAX;
    uint32_t first, second, k, i;
    for (first = 0; first <= run->n; first++)
        for (second = first; second <= run->n; second++)
            for (k = 0; k < 6; k++) {
                uint64_t weights[3] = {0, 0, 0}, moved = 0;
                for (i = 0; i < run->n; i++) {
                    const uint32_t block = i < first ? 0 : i < second ? 1 : 2;
                    weights[block] += run->loads[i];
                    if (orders[k][block] != run->places[i]) moved += run->bytes[i];
                }
                if (weights[0] <= limit && weights[1] <= limit && weights[2] <= limit && moved < fewest) fewest = moved;
            }
    return fewest;
}

/* Runs of six elements on three PEs, which stand in each of the six orders, drawn by a counter. */
static void all_cuts_and_names(void)
{
    static const uint32_t orders[6][3] = {{0, 1, 2}, {0, 2, 1}, {1, 0, 2}, {1, 2, 0}, {2, 0, 1}, {2, 1, 0}};
    uint64_t six_loads[6];
    uint32_t six_bytes[6], six_places[6], turn, i, state = 1;
    int right = 0, fewer = 0;
    const tezgumi_run run = {6, 3, six_loads, six_bytes, six_places};
    tezgumi_reordering d;
    tezgumi_refinement beside;
    if (tezgumi_reordering_room(&d, 6, 3) != TEZGUMI_OK || tezgumi_refinement_room(&beside, 6, 3) != TEZGUMI_OK) {
        test("room", 0);
        return;
    }
    for (turn = 0; turn < 600; turn++) {
        const uint32_t cut = turn % 5 + 1, tolerance = turn % 7 * 100;
        for (i = 0; i < 6; i++) {
            state = state * 1103515245u + 12345u;
            six_loads[i] = state >> 16 & 7;
            six_bytes[i] = (state >> 20 & 63) + 1;
            six_places[i] = orders[turn % 6][i < cut ? 0 : i < cut + 2 ? 1 : 2];
        }
        if (tezgumi_reorder_run(&run, tolerance, &d) != TEZGUMI_OK || tezgumi_refine_run(&run, tolerance, 0, &beside) != TEZGUMI_OK) break;
        right += d.reordered == 1 && tezgumi_check_reordering(&run, &d, NULL) == TEZGUMI_OK
            && d.refinement.decision.moved == fewest_of_all(&run, d.refinement.least + d.refinement.least * tolerance / 1000)
            && d.refinement.decision.moved <= beside.decision.moved;
        fewer += d.refinement.decision.moved < beside.decision.moved;
    }
    same("all move the fewest bytes of all", right, 600);
    test("and some fewer than in the present order", fewer > 20);
    tezgumi_reordering_free(&d);
    tezgumi_refinement_free(&beside);
}

int main(void)
{
    the_example();
    the_room_for_levels();
    the_refusals();
    the_flaws();
    the_struct();
    all_cuts_and_names();
    return failures != 0;
}
