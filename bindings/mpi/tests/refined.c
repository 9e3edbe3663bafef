/* Rebalancing within a tolerance: judged by a division and cuts that the tests find for themselves. */
#include "harness.h"

static field f;
static tezgumi_mpi_report report;

enum { MOST = 320 };

/* The load and the bytes of the elements begin .. end - 1; of the bytes those that stand on a rank. */
static uint64_t load_of(uint32_t begin, uint32_t end)
{
    uint64_t load = 0;
    for (; begin < end; begin++) load += f.load[begin];
    return load;
}

static uint64_t bytes_on(uint32_t on, uint32_t begin, uint32_t end)
{
    uint64_t bytes = 0;
    for (; begin < end; begin++) bytes += f.dealt[begin] == on ? f.size[begin] : 0;
    return bytes;
}

/* The least greatest load of as many ranges as ranks. */
static uint64_t least_load(void)
{
    uint64_t best[MOST + 1], next[MOST + 1];
    uint32_t end, begin;
    int r;
    for (end = 0; end <= f.n; end++) best[end] = load_of(0, end);
    for (r = 1; r < ranks; r++) {
        for (end = 0; end <= f.n; end++) {
            next[end] = best[end];
            for (begin = 0; begin < end; begin++) {
                const uint64_t last = load_of(begin, end), most = last > best[begin] ? last : best[begin];
                if (most < next[end]) next[end] = most;
            }
        }
        memcpy(best, next, sizeof best);
    }
    return best[f.n];
}

/* The most bytes that stay where the ranges of the ranks, in this order, keep to the limit. */
static uint64_t most_kept(const uint32_t *order, uint64_t limit)
{
    int64_t best[MOST + 1], next[MOST + 1];
    uint32_t end, begin;
    int r;
    for (end = 0; end <= f.n; end++) best[end] = end ? -1 : 0;
    for (r = 0; r < ranks; r++) {
        for (end = 0; end <= f.n; end++) {
            next[end] = -1;
            for (begin = 0; begin <= end; begin++) {
                const int64_t kept = best[begin] + (int64_t)bytes_on(order[r], begin, end);
                if (best[begin] >= 0 && load_of(begin, end) <= limit && kept > next[end]) next[end] = kept;
            }
        }
        memcpy(best, next, sizeof best);
    }
    return (uint64_t)best[f.n];
}

/* The order in which the ranks hold the chain, those without elements last. 0 where the elements of one are scattered. */
static int order_of(uint32_t *order)
{
    uint32_t i, count = 0, k, seen[8] = {0};
    for (i = 0; i < f.n; i++) {
        if (i && f.dealt[i] == f.dealt[i - 1]) continue;
        if (seen[f.dealt[i]]++) return 0;
        order[count++] = f.dealt[i];
    }
    for (k = 0; k < (uint32_t)ranks; k++)
        if (!seen[k]) order[count++] = k;
    return 1;
}

static uint64_t greatest(const uint32_t *places)
{
    uint64_t loads[8] = {0}, most = 0;
    uint32_t i;
    for (i = 0; i < f.n; i++) loads[places[i]] += f.load[i];
    for (i = 0; i < 8; i++) most = loads[i] > most ? loads[i] : most;
    return most;
}

/* One rebalance within a tolerance of so many thousandths, judged beside that without one. */
static void judge(uint32_t n, uint32_t seed, dealing how, uint32_t thousandths)
{
    const tezgumi_mpi_options options = {thousandths / 1000.0, 0, 0, 1, 0};
    tezgumi_mpi_chain chain = {0};
    uint32_t order[8];
    uint64_t least, limit, all = 0, planned;
    uint32_t i;
    deal(&f, n, seed, how);
    least = least_load();
    limit = least + least * thousandths / 1000;
    for (i = 0; i < n; i++) all += f.size[i];
    EXPECT(rebalance(&f, NULL, NULL, &report) == TEZGUMI_OK);
    planned = report.bytes_moved;
    deal(&f, n, seed, how);
    EXPECT(rebalance(&f, &options, &chain, &report) == TEZGUMI_OK);
    expect_whole(&f);
    expect_at(&f, chain.places);
    EXPECT(report.max_load_after <= limit && report.max_load_after == greatest(chain.places));
    EXPECT(report.max_load_before == greatest(f.dealt));
    if (order_of(order)) {
        EXPECT(report.bytes_moved <= all - most_kept(order, limit));
        if (report.max_load_before <= limit) EXPECT(report.elements_moved == 0 && report.exchanges == 0);
    }
    /* Without options nothing moves where nothing is gained, though the plan would hand ranges to other ranks. */
    if (planned > 0) EXPECT(report.bytes_moved <= planned);
    tezgumi_mpi_chain_free(&chain);
}

static void judge_all(dealing how)
{
    static const uint32_t counts[] = {1, 2, 3, 5, 40, 120}, tolerances[] = {0, 20, 200, 1000};
    uint32_t k, t, seed;
    for (k = 0; k < sizeof counts / sizeof *counts; k++)
        for (t = 0; t < sizeof tolerances / sizeof *tolerances; t++)
            for (seed = 1; seed <= 3; seed++) judge(counts[k], seed, how, tolerances[t]);
}

static void in_order(void) { judge_all(IN_ORDER); }
static void reversed(void) { judge_all(REVERSED); }
static void scattered(void) { judge_all(SCATTERED); }
static void none(void) { judge(0, 1, IN_ORDER, 20); }

/* 10 elements of load 1 and 10 bytes a rank, and 2 of those of rank 1 on rank 0: loads of 12 and 8, where 10 is least. */
static int rebalance_twelve(double tolerance, int refine)
{
    const tezgumi_mpi_options options = {tolerance, 0, 0, refine, 0};
    uint32_t i;
    deal(&f, 10 * (uint32_t)ranks, 1, IN_ORDER);
    for (i = 0; i < f.n; i++) {
        f.load[i] = 1;
        f.size[i] = 10;
    }
    f.dealt[10] = f.dealt[11] = 0;
    deal_again(&f);
    return rebalance(&f, &options, NULL, &report);
}

static void by_hand(void)
{
    EXPECT(rebalance_twelve(0.19, 1) == TEZGUMI_OK);
    EXPECT(report.elements_moved == 1 && report.bytes_moved == 10 && report.max_load_after == 11);
    EXPECT(rebalance_twelve(0.1, 1) == TEZGUMI_OK && report.elements_moved == 1);
    EXPECT(rebalance_twelve(0.0994, 1) == TEZGUMI_OK && report.elements_moved == 2 && report.max_load_after == 10);
    EXPECT(rebalance_twelve(0.2, 1) == TEZGUMI_OK && report.elements_moved == 0 && report.max_load_after == 12);
    EXPECT(rebalance_twelve(0, 1) == TEZGUMI_OK && report.elements_moved == 2);
    /* Without refine the tolerance says when to leave all as it is, and no more. */
    EXPECT(rebalance_twelve(0.19, 0) == TEZGUMI_OK && report.elements_moved == 2 && report.max_load_after == 10);
}

/* Four elements on three ranks, as tezgumi_mpi.h has them: the ranges are named anew, so that the ranks change their order. */
static void order_that_changes(void)
{
    static const uint64_t loads[] = {6, 2, 1, 2};
    static const uint32_t sizes[] = {2, 37, 15, 6}, from[] = {0, 0, 1, 2}, to[] = {1, 0, 0, 2}, in_order_to[] = {0, 1, 1, 2};
    const tezgumi_mpi_options options = {0.3, 0, 0, 1, 0}, in_order = {0.3, 0, 0, 1, 1};
    deal(&f, 4, 1, IN_ORDER);
    memcpy(f.load, loads, sizeof loads);
    memcpy(f.size, sizes, sizeof sizes);
    memcpy(f.dealt, from, sizeof from);
    deal_again(&f);
    EXPECT(least_load() == 6 && 60 - most_kept((const uint32_t[]){0, 1, 2}, 7) == 37 && 60 - most_kept((const uint32_t[]){2, 0, 1}, 7) == 8);
    EXPECT(rebalance(&f, &options, NULL, &report) == TEZGUMI_OK);
    EXPECT(report.bytes_moved == 17 && report.max_load_before == 8 && report.max_load_after == 6);
    expect_whole(&f);
    expect_at(&f, to);
    memcpy(f.dealt, from, sizeof from);
    deal_again(&f);
    EXPECT(rebalance(&f, &in_order, NULL, &report) == TEZGUMI_OK);
    EXPECT(report.bytes_moved == 37 && report.max_load_after == 6);
    expect_whole(&f);
    expect_at(&f, in_order_to);
}

/* Whether the ranks hold the chain in their own order, each one range, and those without elements last. */
static int is_own_order(void)
{
    uint32_t order[8], k;
    if (!order_of(order)) return 0;
    for (k = 0; k < (uint32_t)ranks; k++)
        if (order[k] != k) return 0;
    return 1;
}

static int is_sorted(const uint32_t *places)
{
    uint32_t i;
    for (i = 1; i < f.n; i++)
        if (places[i] < places[i - 1]) return 0;
    return 1;
}

/* One rebalance within a tolerance, block b on rank b. How many were nearer than the least ranges. */
static uint32_t judge_order(uint32_t n, uint32_t seed, dealing how, uint32_t thousandths)
{
    static const uint32_t own[] = {0, 1, 2, 3, 4, 5, 6, 7};
    const tezgumi_mpi_options both = {thousandths / 1000.0, 0, 0, 1, 1}, least_ones = {0, 0, 0, 0, 1};
    tezgumi_mpi_chain chain = {0}, other = {0};
    uint64_t limit, least, all = 0;
    uint32_t i, nearer = 0;
    deal(&f, n, seed, how);
    EXPECT(rebalance(&f, &least_ones, &other, &report) == TEZGUMI_OK);
    deal(&f, n, seed, how);
    least = least_load();
    limit = least + least * thousandths / 1000;
    for (i = 0; i < n; i++) all += f.size[i];
    EXPECT(rebalance(&f, &both, &chain, &report) == TEZGUMI_OK);
    expect_whole(&f);
    expect_at(&f, chain.places);
    EXPECT(is_sorted(chain.places) && report.max_load_after <= limit && report.max_load_after == greatest(chain.places));
    if (is_sorted(f.dealt) && greatest(f.dealt) <= limit) {
        EXPECT(report.elements_moved == 0);
    } else if (is_own_order()) {
        EXPECT(report.bytes_moved == all - most_kept(own, limit));
        nearer = report.max_load_after > least;
    } else {
        EXPECT(memcmp(chain.places, other.places, n * sizeof *chain.places) == 0);
    }
    tezgumi_mpi_chain_free(&chain);
    tezgumi_mpi_chain_free(&other);
    return nearer;
}

static void with_order(void)
{
    static const uint32_t counts[] = {1, 2, 3, 5, 40, 120}, tolerances[] = {0, 20, 200, 1000};
    static const dealing how[] = {IN_ORDER, REVERSED, SCATTERED};
    uint32_t k, t, h, nearer = 0;
    for (k = 0; k < sizeof counts / sizeof *counts; k++)
        for (t = 0; t < sizeof tolerances / sizeof *tolerances; t++)
            for (h = 0; h < 3; h++) nearer += judge_order(counts[k], 1 + t % 2, how[h], tolerances[t]);
    EXPECT(ranks == 1 || nearer > 0);
}

static void bad_tolerance(void)
{
    EXPECT(rebalance_twelve(1.001, 1) == TEZGUMI_BAD_INPUT);
    EXPECT(rebalance_twelve(rank == 0 ? 1e300 : 1, 1) == TEZGUMI_BAD_INPUT && report.failed_rank == 0);
    EXPECT(rebalance_twelve(1, 1) == TEZGUMI_OK && report.elements_moved == 0);
}

static void unlike_options(void)
{
    EXPECT(rebalance_twelve(rank == 0 ? 0.1 : 0, 1) == TEZGUMI_MPI_DISAGREE);
    EXPECT(rebalance_twelve(0.1, rank == 0) == TEZGUMI_MPI_DISAGREE);
    expect_at(&f, f.dealt);
}

static void without_check(void)
{
    const tezgumi_mpi_options checked = {0.05, 0, 0, 1, 0}, unchecked = {0.05, 0, 1, 1, 0};
    tezgumi_mpi_chain one = {0}, other = {0};
    deal(&f, 300, 5, IN_ORDER);
    EXPECT(rebalance(&f, &checked, &one, &report) == TEZGUMI_OK && report.check_seconds > 0);
    deal(&f, 300, 5, IN_ORDER);
    EXPECT(rebalance(&f, &unchecked, &other, &report) == TEZGUMI_OK && report.check_seconds == 0);
    EXPECT(memcmp(one.places, other.places, 300 * sizeof *one.places) == 0);
    tezgumi_mpi_chain_free(&one);
    tezgumi_mpi_chain_free(&other);
}

int main(int argc, char **argv)
{
    begin_tests(&argc, &argv);
    run_test("no element within a tolerance", none);
    run_test("ranges in order within a tolerance", in_order);
    run_test("ranges in reverse order within a tolerance", reversed);
    run_test("scattered elements within a tolerance", scattered);
    run_test("within a tolerance without the checker", without_check);
    run_test("within a tolerance, in the order of the ranks", with_order);
    if (ranks == 3) run_test("ranks that change their order", order_that_changes);
    if (ranks > 1) {
        run_test("within a tolerance, by hand", by_hand);
        run_test("too great a tolerance to keep within", bad_tolerance);
        run_test("options that differ within a tolerance", unlike_options);
    }
    field_free(&f);
    return end_tests();
}
