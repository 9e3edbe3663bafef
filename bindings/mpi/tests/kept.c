/* Decisions on parts within a tolerance that keep the order of the ranks: judged by a division and cuts that the tests find for
 * themselves, and beside those of ranks that gather all elements. */
#include "parts.h"

static field f;
static tezgumi_mpi_report report;

enum { MOST = 320, MOST_RANKS = 16 };

/* The load and the bytes of the elements begin .. end - 1; of the bytes those that are on a rank. */
static uint64_t load_of(uint32_t begin, uint32_t end)
{
    uint64_t load = 0;
    for (; begin < end; begin++) load += f.load[begin];
    return load;
}

static uint64_t bytes_on(uint32_t on, uint32_t begin, uint32_t end)
{
    uint64_t bytes = 0;
    for (; begin < end; begin++) bytes += f.dealt[begin] == on ? f.size[begin] : 0;
    return bytes;
}

/* The least greatest load of as many ranges as ranks. */
static uint64_t least_load(void)
{
    uint64_t best[MOST + 1], next[MOST + 1];
    uint32_t end, begin;
    int r;
    for (end = 0; end <= f.n; end++) best[end] = load_of(0, end);
    for (r = 1; r < ranks; r++) {
        for (end = 0; end <= f.n; end++) {
            next[end] = best[end];
            for (begin = end; begin > 0; begin--) {
                const uint64_t last = load_of(begin - 1, end), most = last > best[begin - 1] ? last : best[begin - 1];
                if (most < next[end]) next[end] = most;
            }
        }
        memcpy(best, next, sizeof best);
    }
    return best[f.n];
}

/* The most bytes that stay where block b is on rank b and no block is above the limit. */
static uint64_t most_kept(uint64_t limit)
{
    int64_t best[MOST + 1], next[MOST + 1];
    uint32_t end, begin;
    int r;
    for (end = 0; end <= f.n; end++) best[end] = end ? -1 : 0;
    for (r = 0; r < ranks; r++) {
        for (end = 0; end <= f.n; end++) {
            next[end] = -1;
            for (begin = 0; begin <= end; begin++) {
                const int64_t kept = best[begin] + (int64_t)bytes_on((uint32_t)r, begin, end);
                if (best[begin] >= 0 && load_of(begin, end) <= limit && kept > next[end]) next[end] = kept;
            }
        }
        memcpy(best, next, sizeof best);
    }
    return (uint64_t)best[f.n];
}

static uint64_t greatest(const uint32_t *places)
{
    uint64_t loads[MOST_RANKS] = {0}, most = 0;
    uint32_t i;
    for (i = 0; i < f.n; i++) loads[places[i]] += f.load[i];
    for (i = 0; i < MOST_RANKS; i++) most = loads[i] > most ? loads[i] : most;
    return most;
}

static uint64_t all_bytes(void)
{
    uint64_t bytes = 0;
    uint32_t i;
    for (i = 0; i < f.n; i++) bytes += f.size[i];
    return bytes;
}

/* Deals a field out in the order of the ranks, of which some, anywhere, may have nothing. */
static void deal_in_order(uint32_t n, uint32_t seed, kind loads, uint32_t even)
{
    uint32_t cuts[MOST_RANKS + 1], i, r;
    deal(&f, n, seed, IN_ORDER);
    for (i = 0; i < n; i++) {
        if (loads == EVEN) f.load[i] = 100;
        if (loads == ZERO) f.load[i] = next_random(&seed, 3) ? 0 : 7;
        if (loads == GIANT && i == n / 2) f.load[i] = 1000000;
        if (loads == SKEW) f.load[i] = 1 + (uint64_t)i * i;
    }
    for (r = 1; r < (uint32_t)ranks; r++) cuts[r] = even ? n * r / (uint32_t)ranks : next_random(&seed, n + 1);
    for (i = 0; i < n; i++) {
        f.dealt[i] = 0;
        for (r = 1; r < (uint32_t)ranks; r++) f.dealt[i] += cuts[r] <= i;
    }
    deal_again(&f);
}

/* Whether no rank without elements is before one that has some. */
static int are_idle_last(void)
{
    uint32_t i, next = 0;
    for (i = 0; i < f.n; i++) {
        if (f.dealt[i] > next) return 0;
        if (f.dealt[i] == next) next++;
    }
    return 1;
}

/* What ranks that gather all elements decide. */
static void expect_as_gathered(const tezgumi_mpi_options *options, const uint32_t *places)
{
    static tezgumi_mpi_element mine[FIELD_MOST];
    const uint32_t count = elements_of(&f, mine);
    tezgumi_mpi_report other;
    tezgumi_mpi_chain chain = {0};
    EXPECT(tezgumi_mpi_gather(MPI_COMM_WORLD, mine, count, &chain, &other) == TEZGUMI_OK);
    EXPECT(tezgumi_mpi_decide(MPI_COMM_WORLD, &chain, options, &other) == TEZGUMI_OK);
    EXPECT(memcmp(chain.new_places, places, f.n * sizeof *places) == 0);
    EXPECT(other.bytes_moved == report.bytes_moved && other.elements_moved == report.elements_moved);
    EXPECT(other.max_load_after == report.max_load_after && other.max_load_before == report.max_load_before);
    tezgumi_mpi_chain_free(&chain);
}

/* One decision within a tolerance of so many thousandths. Whether something moved. */
static uint32_t judge(uint32_t thousandths)
{
    static uint32_t places[FIELD_MOST];
    const tezgumi_mpi_options options = {thousandths / 1000.0, 0, 0, 1, 1};
    const tezgumi_mpi_part part = part_of(&f);
    const uint64_t least = least_load(), limit = least + least * thousandths / 1000;
    tezgumi_mpi_layout layout = {0};
    uint32_t b;
    EXPECT(tezgumi_mpi_decide_part(MPI_COMM_WORLD, &part, &options, &layout, &report) == TEZGUMI_OK);
    places_by(&layout, places);
    for (b = 0; b < (uint32_t)ranks; b++) EXPECT(layout.names[b] == b);
    EXPECT(report.max_load_before == greatest(f.dealt));
    EXPECT(report.max_load_after <= limit && report.max_load_after == greatest(places));
    EXPECT(report.bytes_moved == all_bytes() - most_kept(limit));
    if (greatest(f.dealt) <= limit) EXPECT(report.elements_moved == 0 && report.gathered <= f.n);
    if (are_idle_last()) expect_as_gathered(&options, places);
    expect_same((int64_t)report.bytes_moved);
    tezgumi_mpi_layout_free(&layout);
    return report.elements_moved > 0;
}

static void judge_all(uint32_t even)
{
    static const uint32_t counts[] = {0, 1, 2, 3, 5, 17, 60, 150}, tolerances[] = {0, 20, 200, 1000};
    uint32_t k, t, seed, moved = 0;
    kind loads;
    for (k = 0; k < sizeof counts / sizeof *counts; k++)
        for (t = 0; t < sizeof tolerances / sizeof *tolerances; t++)
            for (loads = EVEN; loads <= KINDS; loads++)
                for (seed = 1; seed <= 2; seed++) {
                    deal_in_order(counts[k], seed + 2 * t, loads, even);
                    moved += judge(tolerances[t]);
                }
    EXPECT(ranks == 1 || moved > 0);
}

static void even_parts(void) { judge_all(1); }
static void any_parts(void) { judge_all(0); }

/* The same where the least ranges were found by walks: hardly any runs are gathered otherwise. */
static void by_walks(void)
{
    enough = 0;
    judge_all(1);
    enough = UINT64_MAX;
}

/* 10 elements of load 1 and 10 bytes a rank, and 2 of those of rank 1 on rank 0: loads of 12 and 8, where 10 is least. */
static void deal_twelve(void)
{
    uint32_t i;
    deal(&f, 10 * (uint32_t)ranks, 1, IN_ORDER);
    for (i = 0; i < f.n; i++) {
        f.load[i] = 1;
        f.size[i] = 10;
    }
    f.dealt[10] = f.dealt[11] = 0;
    deal_again(&f);
}

static int decide_twelve(double tolerance, int refine, int keep_order)
{
    const tezgumi_mpi_options options = {tolerance, 0, 0, refine, keep_order};
    const tezgumi_mpi_part part = part_of(&f);
    tezgumi_mpi_layout layout = {0};
    const int status = tezgumi_mpi_decide_part(MPI_COMM_WORLD, &part, &options, &layout, &report);
    tezgumi_mpi_layout_free(&layout);
    return status;
}

static void by_hand(void)
{
    deal_twelve();
    EXPECT(decide_twelve(0.19, 1, 1) == TEZGUMI_OK);
    EXPECT(report.elements_moved == 1 && report.bytes_moved == 10 && report.max_load_after == 11);
    EXPECT(decide_twelve(0.1, 1, 1) == TEZGUMI_OK && report.elements_moved == 1);
    EXPECT(decide_twelve(0.0994, 1, 1) == TEZGUMI_OK && report.elements_moved == 2 && report.max_load_after == 10);
    EXPECT(decide_twelve(0.2, 1, 1) == TEZGUMI_OK && report.elements_moved == 0 && report.max_load_after == 12);
    EXPECT(decide_twelve(0, 1, 1) == TEZGUMI_OK && report.elements_moved == 2);
    /* Without refine the tolerance says when to leave all as it is, and no more. */
    EXPECT(decide_twelve(0.19, 0, 1) == TEZGUMI_OK && report.elements_moved == 2 && report.max_load_after == 10);
}

static void refusals(void)
{
    deal_twelve();
    EXPECT(decide_twelve(0.1, 1, 0) == TEZGUMI_BAD_INPUT);
    EXPECT(decide_twelve(1.001, 1, 1) == TEZGUMI_BAD_INPUT);
    EXPECT(decide_twelve(-0.1, 1, 1) == TEZGUMI_BAD_INPUT);
    EXPECT(decide_twelve(rank == 0 ? 1e300 : 1, 1, 1) == TEZGUMI_BAD_INPUT && report.failed_rank == 0);
    if (ranks == 1) return;
    EXPECT(decide_twelve(rank == 0 ? 0.1 : 0, 1, 1) == TEZGUMI_MPI_DISAGREE);
    EXPECT(decide_twelve(0.1, rank == 0, 1) == TEZGUMI_MPI_DISAGREE);
}

/* Ranks that hold the chain in another order: the least ranges, block b on rank b. */
static void another_order(void)
{
    const tezgumi_mpi_options both = {0.2, 0, 0, 1, 1}, order = {0, 0, 0, 0, 1};
    tezgumi_mpi_layout one = {0}, other = {0};
    tezgumi_mpi_part part;
    deal(&f, 60, 4, REVERSED);
    part = part_of(&f);
    EXPECT(tezgumi_mpi_decide_part(MPI_COMM_WORLD, &part, &both, &one, &report) == TEZGUMI_OK);
    EXPECT(tezgumi_mpi_decide_part(MPI_COMM_WORLD, &part, &order, &other, &report) == TEZGUMI_OK);
    EXPECT(memcmp(one.cuts, other.cuts, ((size_t)ranks + 1) * sizeof *one.cuts) == 0);
    EXPECT(memcmp(one.names, other.names, (size_t)ranks * sizeof *one.names) == 0);
    tezgumi_mpi_layout_free(&one);
    tezgumi_mpi_layout_free(&other);
}

/* Decide and move in one call, without gathering all elements. */
static void rebalanced(void)
{
    static uint32_t places[FIELD_MOST];
    const tezgumi_mpi_options options = {0.05, 0, 0, 1, 1};
    const tezgumi_mpi_part part = (deal_in_order(300, 5, SKEW, 1), part_of(&f));
    tezgumi_mpi_layout layout = {0};
    uint64_t moved;
    EXPECT(tezgumi_mpi_decide_part(MPI_COMM_WORLD, &part, &options, &layout, &report) == TEZGUMI_OK);
    places_by(&layout, places);
    moved = report.bytes_moved;
    tezgumi_mpi_layout_free(&layout);
    EXPECT(rebalance(&f, &options, NULL, &report) == TEZGUMI_OK && report.bytes_moved == moved);
    expect_whole(&f);
    expect_at(&f, places);
}

/* Without the check by sums the decision is the same. */
static void without_check(void)
{
    const tezgumi_mpi_options checked = {0.05, 0, 0, 1, 1}, unchecked = {0.05, 0, 1, 1, 1};
    const tezgumi_mpi_part part = (deal_in_order(300, 5, SKEW, 1), part_of(&f));
    tezgumi_mpi_layout one = {0}, other = {0};
    EXPECT(tezgumi_mpi_decide_part(MPI_COMM_WORLD, &part, &checked, &one, &report) == TEZGUMI_OK);
    EXPECT(ranks == 1 || report.check_seconds > 0);
    EXPECT(tezgumi_mpi_decide_part(MPI_COMM_WORLD, &part, &unchecked, &other, &report) == TEZGUMI_OK && report.check_seconds == 0);
    EXPECT(memcmp(one.cuts, other.cuts, ((size_t)ranks + 1) * sizeof *one.cuts) == 0);
    tezgumi_mpi_layout_free(&one);
    tezgumi_mpi_layout_free(&other);
}

int main(int argc, char **argv)
{
    begin_tests(&argc, &argv);
    run_test("even parts in order, within a tolerance", even_parts);
    run_test("any parts in order, within a tolerance", any_parts);
    run_test("even parts in order, whose least ranges walks find", by_walks);
    run_test("parts in another order", another_order);
    run_test("a rebalance that keeps the order", rebalanced);
    run_test("cuts that keep the order, without the check", without_check);
    run_test("options that parts refuse", refusals);
    if (ranks > 1) run_test("parts in order, by hand", by_hand);
    field_free(&f);
    return end_tests();
}
