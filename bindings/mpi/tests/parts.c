/* Decisions on parts: the same as those of ranks that know all elements, whichever way windows are found. Link with --wrap for
 * tezgumi_mpi_enough and tezgumi_check_division. */
#include <math.h>
#include <tezgumi_parts.h>
#include "parts.h"

static field f;
static tezgumi_mpi_layout layout;
static tezgumi_mpi_chain chain;
static tezgumi_mpi_report report, central;
static uint32_t places[FIELD_MOST];

/* The division that was checked last: its cuts and stops, or none. */
static uint32_t checked[2 * (FIELD_MOST + 1)];
static size_t checked_cuts, checked_stops;

extern __typeof__(tezgumi_check_division) __real_tezgumi_check_division, __wrap_tezgumi_check_division;
int32_t __wrap_tezgumi_check_division(uint32_t elements, uint32_t pes, uint64_t bottleneck, const uint32_t *cuts, size_t cuts_len,
    const uint32_t *stops, size_t stops_len, const uint64_t *block_loads, size_t block_loads_len, const uint64_t *fence_loads,
    size_t fence_loads_len)
{
    checked_cuts = cuts_len;
    checked_stops = stops_len;
    memcpy(checked, cuts, cuts_len * sizeof *cuts);
    memcpy(checked + cuts_len, stops, stops_len * sizeof *stops);
    return __real_tezgumi_check_division(
        elements, pes, bottleneck, cuts, cuts_len, stops, stops_len, block_loads, block_loads_len, fence_loads, fence_loads_len);
}

/* The division that was checked, if one was, has the cuts and the fence of the whole field's. */
static void expect_same_division(void)
{
    static uint32_t whole[2 * (FIELD_MOST + 1)];
    const size_t cuts = (size_t)ranks + 1;
    size_t stops = 0;
    uint64_t bottleneck;
    if (checked_cuts == 0) return;
    EXPECT(tezgumi_divide(f.load, f.n, (uint32_t)ranks, &bottleneck, whole, cuts, whole + cuts, cuts, &stops) == TEZGUMI_OK);
    EXPECT(checked_cuts == cuts && checked_stops == stops && memcmp(checked, whole, (cuts + stops) * sizeof *whole) == 0);
}

static int decide(const tezgumi_mpi_options *options)
{
    const tezgumi_mpi_part part = part_of(&f);
    return tezgumi_mpi_decide_part(MPI_COMM_WORLD, &part, options, &layout, &report);
}

/* The decision on the whole field, which every rank sees. */
static int decide_centrally(const tezgumi_mpi_options *options)
{
    static tezgumi_mpi_element mine[FIELD_MOST];
    EXPECT(tezgumi_mpi_gather(MPI_COMM_WORLD, mine, elements_of(&f, mine), &chain, &central) == TEZGUMI_OK);
    return tezgumi_mpi_decide(MPI_COMM_WORLD, &chain, options, &central);
}

/* The layout is of this field, and so is the part. */
static void expect_layout(void)
{
    uint32_t r, i;
    EXPECT(layout.n == f.n && layout.ranks == (uint32_t)ranks);
    for (r = 0; r < layout.ranks; r++)
        for (i = 0; i < layout.counts[r]; i++) EXPECT(f.dealt[layout.firsts[r] + i] == r);
}

/* Both ways decide the same. */
static void compare(const tezgumi_mpi_options *options)
{
    checked_cuts = 0;
    EXPECT(decide(options) == TEZGUMI_OK);
    EXPECT(decide_centrally(options) == TEZGUMI_OK);
    expect_layout();
    expect_same_division();
    places_by(&layout, places);
    EXPECT(f.n == 0 || memcmp(places, chain.new_places, f.n * sizeof *places) == 0);
    EXPECT(report.max_load_before == central.max_load_before && report.max_load_after == central.max_load_after);
    EXPECT(report.average_load == central.average_load);
    EXPECT(report.bytes_moved == central.bytes_moved && report.elements_moved == central.elements_moved);
    EXPECT(report.failed_rank == -1 && report.retries == 0);
    EXPECT(central.gathered == f.n && report.gathered <= f.n);
}

/* Chains of all kinds, with windows of one kind. */
static void compare_all(uint64_t runs, const tezgumi_mpi_options *options)
{
    static const uint32_t counts[] = {1, 2, 7, 40, 300};
    const uint32_t seeds = ranks > 4 ? 1 : 2;
    uint32_t k, loads, seed;
    enough = runs;
    for (k = ranks > 4 ? 3 : 0; k < sizeof counts / sizeof *counts; k++) {
        for (loads = 0; loads < KINDS; loads++) {
            for (seed = 1; seed <= seeds; seed++) {
                deal_parts(&f, counts[k], seed + k, (kind)loads, seed + k > 3);
                compare(options);
            }
        }
    }
    enough = UINT64_MAX;
}

static void by_totals(void) { compare_all(UINT64_MAX, NULL); }
static void by_walks(void) { compare_all(20, NULL); }
static void by_ends(void) { compare_all(0, NULL); }

static void unchecked(void)
{
    const tezgumi_mpi_options options = {0, 0, 1, 0, 0};
    compare_all(20, &options);
}

static void in_order_of_ranks(void)
{
    const tezgumi_mpi_options options = {0, 0, 0, 0, 1};
    compare_all(UINT64_MAX, &options);
}

static void none(void)
{
    deal(&f, 0, 1, IN_ORDER);
    compare(NULL);
    EXPECT(report.elements_moved == 0);
}

/* Where nothing can be gained, nothing is searched for. */
static void nothing_to_gain(void)
{
    uint32_t i;
    deal(&f, 10 * (uint32_t)ranks, 1, REVERSED);
    for (i = 0; i < f.n; i++) f.load[i] = 3;
    deal_again(&f);
    compare(NULL);
    EXPECT(report.gathered == 0 && report.passes == 0 && report.elements_moved == 0);
}

/* How much is gathered. Two passes narrow bounds that are 150 apart until they meet, and then no run is. Those of loads of up to
 * 2^40 take more. */
static void little_is_gathered(void)
{
    deal_parts(&f, 4000, 5, EVEN, 1);
    EXPECT(decide(NULL) == TEZGUMI_OK);
    EXPECT(report.gathered > 0 && report.gathered < f.n && report.passes == 0);
    enough = 0;
    EXPECT(decide(NULL) == TEZGUMI_OK);
    EXPECT(report.gathered == 0 && report.passes > 0 && report.passes <= 2);
    deal_parts(&f, 4000, 5, SKEW, 1);
    EXPECT(decide(NULL) == TEZGUMI_OK);
    EXPECT(report.gathered == 0 && report.passes > 2 && report.passes <= 7);
    enough = UINT64_MAX;
}

/* 10 elements of load 1 a rank, and 2 of those of rank 1 on rank 0: the greatest load is 12, and the least is 10. */
static void deal_twelve(void)
{
    uint32_t i;
    deal(&f, 10 * (uint32_t)ranks, 1, IN_ORDER);
    for (i = 0; i < f.n; i++) {
        f.load[i] = 1;
        f.size[i] = 10;
    }
    f.dealt[10] = f.dealt[11] = 0;
    deal_again(&f);
}

static void tolerance(void)
{
    static const struct { double tolerance; uint64_t load; uint32_t moved; } rows[] = {
        {0, 10, 2}, {0.19, 10, 2}, {0.2, 12, 0}, {5, 12, 0}, {HUGE_VAL, 12, 0}};
    uint32_t k;
    for (k = 0; k < sizeof rows / sizeof *rows; k++) {
        const tezgumi_mpi_options options = {rows[k].tolerance, 0, 0, 0, 0};
        deal_twelve();
        compare(&options);
        EXPECT(report.max_load_before == 12 && report.max_load_after == rows[k].load);
        EXPECT(report.elements_moved == rows[k].moved && report.bytes_moved == 10 * rows[k].moved);
    }
}

/* With the order kept, reversed ranges are no ranges to stay. */
static void order_matters(void)
{
    const tezgumi_mpi_options options = {1, 0, 0, 0, 1};
    uint32_t b;
    deal(&f, 10 * (uint32_t)ranks, 2, REVERSED);
    compare(&options);
    EXPECT(report.elements_moved > 0);
    for (b = 0; b < layout.ranks; b++) EXPECT(layout.names[b] == b);
    deal(&f, 10 * (uint32_t)ranks, 2, IN_ORDER);
    for (b = 0; b < f.n; b++) f.load[b] = 7;
    compare(&options);
    EXPECT(report.elements_moved == 0);
}

/* The last rank does something wrong; what its part is then. */
static void expect_refused(tezgumi_mpi_part part, int expected, uint32_t at)
{
    EXPECT(tezgumi_mpi_decide_part(MPI_COMM_WORLD, &part, NULL, &layout, &report) == expected);
    EXPECT(report.failed_rank == ranks - 1 && report.failed_at == at);
    EXPECT(layout.n == 0 && layout.ranks == 0);
}

static void refusals(void)
{
    static uint32_t bytes[FIELD_MOST];
    static uint64_t loads[FIELD_MOST];
    const uint32_t n = 4 * (uint32_t)ranks, off = ranks > 1 ? UINT32_MAX : 1; /* one back, or on */
    const int wrong = rank == ranks - 1;
    tezgumi_mpi_part part, good;
    deal(&f, n, 1, IN_ORDER);
    good = part = part_of(&f);
    if (wrong) part.first += off;
    expect_refused(part, TEZGUMI_MPI_BAD_INDEX, n - 4 + off);
    part = good;
    if (wrong) part.loads = NULL;
    expect_refused(part, TEZGUMI_BAD_INPUT, 0);
    EXPECT(report.failed_rule == TEZGUMI_MPI_RULE_NULL);
    part = good;
    memcpy(bytes, part.bytes, part.count * sizeof *bytes);
    memcpy(loads, part.loads, part.count * sizeof *loads);
    part.bytes = bytes;
    part.loads = loads;
    if (wrong) loads[1] = INT64_MAX;
    if (wrong) loads[2] = 1;
    expect_refused(part, TEZGUMI_BAD_LOAD, n - 3);
    EXPECT(report.failed_rule == TEZGUMI_MPI_RULE_TOTAL_LOAD);
    if (wrong) bytes[3] = TEZGUMI_MPI_BYTES + 1;
    expect_refused(part, TEZGUMI_BAD_INPUT, n - 1);
    EXPECT(report.failed_rule == TEZGUMI_MPI_RULE_BYTES);
    EXPECT(tezgumi_mpi_decide_part(MPI_COMM_WORLD, wrong ? NULL : &good, NULL, &layout, &report) == TEZGUMI_BAD_INPUT);
    EXPECT(tezgumi_mpi_decide_part(MPI_COMM_WORLD, &good, NULL, wrong ? NULL : &layout, &report) == TEZGUMI_BAD_INPUT);
    EXPECT(tezgumi_mpi_decide_part(MPI_COMM_WORLD, &good, NULL, &layout, NULL) == TEZGUMI_OK);
    EXPECT(layout.n == n);
}

/* All loads together are the greatest that is taken. */
static void greatest_loads(void)
{
    uint32_t i;
    deal_parts(&f, 8, 3, ZERO, 1);
    for (i = 0; i < 8; i++) f.load[i] = (UINT64_C(1) << 60) - (i == 3);
    EXPECT(decide(NULL) == TEZGUMI_OK);
    EXPECT(report.max_load_after <= (8 + (uint64_t)ranks - 1) / (uint64_t)ranks << 60);
    f.load[3]++;
    EXPECT(decide(NULL) == TEZGUMI_BAD_LOAD);
}

static void bad_options(void)
{
    tezgumi_mpi_options options = {0, 0, 0, 0, 0};
    deal(&f, 20, 1, IN_ORDER);
    if (rank == ranks - 1) options.tolerance = (double)NAN;
    EXPECT(decide(&options) == TEZGUMI_BAD_INPUT && report.failed_rank == ranks - 1);
    EXPECT(report.failed_rule == TEZGUMI_MPI_RULE_TOLERANCE);
    options.tolerance = 0;
    options.refine = 1;
    EXPECT(decide(&options) == TEZGUMI_BAD_INPUT && report.failed_rule == TEZGUMI_MPI_RULE_REFINE);
    options.refine = 0;
    options.tolerance = rank == 0;
    EXPECT(decide(&options) == (ranks > 1 ? TEZGUMI_MPI_DISAGREE : TEZGUMI_OK));
    EXPECT(report.failed_rank == -1);
}

int main(int argc, char **argv)
{
    begin_tests(&argc, &argv);
    run_test("windows by totals", by_totals);
    run_test("windows by walks", by_walks);
    run_test("walks until the bounds meet", by_ends);
    run_test("without the checker", unchecked);
    run_test("blocks in order of the ranks", in_order_of_ranks);
    run_test("no element", none);
    run_test("nothing to gain", nothing_to_gain);
    run_test("refusals", refusals);
    run_test("the greatest loads", greatest_loads);
    run_test("options that are bad or differ", bad_options);
    if (ranks > 1) {
        run_test("little is gathered", little_is_gathered);
        run_test("a tolerance", tolerance);
        run_test("an order that matters", order_matters);
    }
    field_free(&f);
    tezgumi_mpi_layout_free(&layout);
    tezgumi_mpi_layout_free(NULL);
    tezgumi_mpi_chain_free(&chain);
    return end_tests();
}
