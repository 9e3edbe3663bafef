/* Where elements come to stand: judged by a division and namings that the tests find for themselves. */
#include "harness.h"

static field f;

/* The least greatest load of at most so many ranges, by dynamic programming over where the last of them begins. */
static uint64_t least_greatest_load(const field *g, int ranges)
{
    static uint64_t best[FIELD_MOST + 1], next[FIELD_MOST + 1];
    uint32_t end, begin;
    int r;
    best[0] = 0;
    for (end = 0; end < g->n; end++) best[end + 1] = best[end] + g->load[end];
    for (r = 1; r < ranges; r++) {
        for (end = 0; end <= g->n; end++) {
            uint64_t last = 0;
            next[end] = best[end];
            for (begin = end; begin-- > 0;) {
                uint64_t greatest;
                last += g->load[begin];
                greatest = last > best[begin] ? last : best[begin];
                if (greatest < next[end]) next[end] = greatest;
            }
        }
        memcpy(best, next, sizeof best);
    }
    return best[g->n];
}

/* The bytes that move where the element is handed to the rank that a permutation names for the one that got it. */
static uint64_t bytes_by(const field *g, const uint32_t *places, const uint32_t *named)
{
    uint64_t bytes = 0;
    uint32_t i;
    for (i = 0; i < g->n; i++)
        if (named[places[i]] != g->dealt[i]) bytes += g->size[i];
    return bytes;
}

static void swap(uint32_t *a, uint32_t *b)
{
    const uint32_t c = *a;
    *a = *b;
    *b = c;
}

/* The fewest bytes over all permutations of the names from one on. */
static uint64_t fewest_bytes(const field *g, const uint32_t *places, uint32_t *named, int from)
{
    uint64_t fewest = UINT64_MAX;
    int k;
    if (from == ranks) return bytes_by(g, places, named);
    for (k = from; k < ranks; k++) {
        uint64_t bytes;
        swap(&named[from], &named[k]);
        bytes = fewest_bytes(g, places, named, from + 1);
        swap(&named[from], &named[k]);
        if (bytes < fewest) fewest = bytes;
    }
    return fewest;
}

static uint64_t load_here(const field *g)
{
    uint64_t load = 0;
    uint32_t i;
    for (i = 0; i < g->n; i++)
        if (g->held[i]) load += g->load[i];
    return load;
}

static uint64_t most_of_ranks(uint64_t number)
{
    uint64_t most;
    MPI_Allreduce(&number, &most, 1, MPI_UINT64_T, MPI_MAX, MPI_COMM_WORLD);
    return most;
}

static uint64_t sum_of_ranks(uint64_t number)
{
    uint64_t sum;
    MPI_Allreduce(&number, &sum, 1, MPI_UINT64_T, MPI_SUM, MPI_COMM_WORLD);
    return sum;
}

static void expect_ranges(const field *g, const tezgumi_mpi_chain *chain)
{
    uint32_t first, end, i;
    EXPECT(chain->n == g->n && chain->ranks == (uint32_t)ranks);
    EXPECT(tezgumi_mpi_range(chain, rank, &first, &end));
    for (i = 0; i < g->n; i++) EXPECT((g->held[i] != NULL) == (first <= i && i < end));
}

/* One rebalance, judged in every part. */
static void judge(uint32_t n, uint32_t seed, dealing how)
{
    uint32_t named[8] = {0, 1, 2, 3, 4, 5, 6, 7}, i, moves = 0;
    tezgumi_mpi_chain chain = {0};
    tezgumi_mpi_report report;
    uint64_t before;
    deal(&f, n, seed, how);
    before = most_of_ranks(load_here(&f));
    EXPECT(rebalance(&f, NULL, &chain, &report) == TEZGUMI_OK);
    expect_whole(&f);
    expect_ranges(&f, &chain);
    expect_at(&f, chain.places);
    EXPECT(n == 0 || memcmp(chain.places, chain.new_places, n * sizeof *chain.places) == 0);
    for (i = 0; i < n; i++) moves += chain.places[i] != f.dealt[i];
    EXPECT(report.elements_moved == moves);
    EXPECT(report.bytes_moved == bytes_by(&f, chain.places, named));
    if (moves > 0) EXPECT(report.bytes_moved == fewest_bytes(&f, chain.places, named, 0));
    EXPECT(report.max_load_before == before);
    EXPECT(report.max_load_after == most_of_ranks(load_here(&f)));
    EXPECT(report.max_load_after == least_greatest_load(&f, ranks));
    EXPECT(report.average_load == (double)sum_of_ranks(load_here(&f)) / ranks);
    EXPECT(report.failed_rank == -1 && report.exchanges == (moves > 0));
    EXPECT(report.gather_seconds > 0 && report.plan_seconds > 0 && report.check_seconds > 0);
    tezgumi_mpi_chain_free(&chain);
}

static void judge_all(dealing how)
{
    static const uint32_t counts[] = {1, 2, 3, 5, 40, 300};
    uint32_t k, seed;
    for (k = 0; k < sizeof counts / sizeof *counts; k++)
        for (seed = 1; seed <= 4; seed++) judge(counts[k], seed, how);
}

static void in_order(void) { judge_all(IN_ORDER); }
static void reversed(void) { judge_all(REVERSED); }
static void scattered(void) { judge_all(SCATTERED); }
static void on_half(void) { judge_all(ON_HALF); }
static void none(void) { judge(0, 1, IN_ORDER); }

/* Where each rank has a range and nothing can be gained, nothing moves. */
static void again(void)
{
    tezgumi_mpi_report report;
    deal(&f, 200, 3, SCATTERED);
    EXPECT(rebalance(&f, NULL, NULL, &report) == TEZGUMI_OK);
    f.packs = f.unpacks = f.drops = 0;
    EXPECT(rebalance(&f, NULL, NULL, &report) == TEZGUMI_OK);
    EXPECT(report.elements_moved == 0 && report.bytes_moved == 0 && report.exchanges == 0);
    EXPECT(report.max_load_after == report.max_load_before);
    EXPECT(f.packs == 0 && f.unpacks == 0 && f.drops == 0);
    expect_whole(&f);
}

/* Every element that left was packed, unpacked and dropped once. */
static void each_once(void)
{
    tezgumi_mpi_report report;
    deal(&f, 500, 8, SCATTERED);
    EXPECT(rebalance(&f, NULL, NULL, &report) == TEZGUMI_OK);
    EXPECT(f.packs == f.drops);
    EXPECT(sum_of_ranks(f.packs) == report.elements_moved && sum_of_ranks(f.unpacks) == report.elements_moved);
}

/* The steps do together what rebalance does. */
static void by_steps(void)
{
    static tezgumi_mpi_element mine[FIELD_MOST];
    const tezgumi_mpi_callbacks callbacks = callbacks_of(&f);
    tezgumi_mpi_chain chain = {0}, whole = {0};
    tezgumi_mpi_report report;
    uint32_t count;
    deal(&f, 300, 5, SCATTERED);
    EXPECT(rebalance(&f, NULL, &whole, NULL) == TEZGUMI_OK);
    deal(&f, 300, 5, SCATTERED);
    count = elements_of(&f, mine);
    EXPECT(tezgumi_mpi_gather(MPI_COMM_WORLD, mine, count, &chain, NULL) == TEZGUMI_OK);
    expect_at(&f, chain.places);
    expect_at(&f, chain.new_places);
    EXPECT(tezgumi_mpi_decide(MPI_COMM_WORLD, &chain, NULL, NULL) == TEZGUMI_OK);
    expect_at(&f, chain.places);
    EXPECT(memcmp(chain.new_places, whole.places, 300 * sizeof *chain.places) == 0);
    EXPECT(tezgumi_mpi_move(MPI_COMM_WORLD, &chain, &callbacks, NULL, &report) == TEZGUMI_OK);
    EXPECT(memcmp(chain.places, whole.places, 300 * sizeof *chain.places) == 0);
    expect_whole(&f);
    expect_at(&f, chain.places);
    tezgumi_mpi_chain_free(&chain);
    tezgumi_mpi_chain_free(&whole);
}

/* Any places can be moved to, and range tells that they are no ranges. */
static void places_of_others(void)
{
    static tezgumi_mpi_element mine[FIELD_MOST];
    const tezgumi_mpi_callbacks callbacks = callbacks_of(&f);
    tezgumi_mpi_chain chain = {0};
    uint32_t i, first, end;
    deal(&f, 100, 6, IN_ORDER);
    EXPECT(tezgumi_mpi_gather(MPI_COMM_WORLD, mine, elements_of(&f, mine), &chain, NULL) == TEZGUMI_OK);
    for (i = 0; i < 100; i++) chain.new_places[i] = i % (uint32_t)ranks;
    EXPECT(tezgumi_mpi_move(MPI_COMM_WORLD, &chain, &callbacks, NULL, NULL) == TEZGUMI_OK);
    expect_whole(&f);
    for (i = 0; i < 100; i++) EXPECT((f.held[i] != NULL) == (i % (uint32_t)ranks == (uint32_t)rank));
    EXPECT(tezgumi_mpi_range(&chain, rank, &first, &end) == (ranks == 1));
    EXPECT(first == (uint32_t)rank && end > 100u - (uint32_t)ranks);
    tezgumi_mpi_chain_free(&chain);
}

/* One chain serves fields of any size. */
static void one_chain(void)
{
    static const uint32_t counts[] = {10, 1000, 0, 3, 2000};
    tezgumi_mpi_chain chain = {0};
    uint32_t k;
    for (k = 0; k < sizeof counts / sizeof *counts; k++) {
        deal(&f, counts[k], k + 1, SCATTERED);
        EXPECT(rebalance(&f, NULL, &chain, NULL) == TEZGUMI_OK);
        expect_whole(&f);
        expect_ranges(&f, &chain);
    }
    tezgumi_mpi_chain_free(&chain);
    EXPECT(chain.n == 0 && !chain.room);
    tezgumi_mpi_chain_free(&chain);
    tezgumi_mpi_chain_free(NULL);
}

static int copy_word(void *app, uint32_t index, void *to, uint32_t bytes)
{
    memcpy(to, (uint32_t *)app + index, bytes);
    return 0;
}

static int take_word(void *app, uint32_t index, const void *from, uint32_t bytes)
{
    memcpy((uint32_t *)app + index, from, bytes);
    return 0;
}

/* As many elements as may be, all on the last rank, without a drop. */
static void most_elements(void)
{
    static tezgumi_mpi_element mine[TEZGUMI_MPI_GATHERED_ELEMENTS];
    static uint32_t words[TEZGUMI_MPI_GATHERED_ELEMENTS];
    const tezgumi_mpi_callbacks callbacks = {copy_word, take_word, NULL, words};
    const uint32_t count = rank == ranks - 1 ? TEZGUMI_MPI_GATHERED_ELEMENTS : 0;
    tezgumi_mpi_chain chain = {0};
    tezgumi_mpi_report report;
    uint32_t i, first, end;
    for (i = 0; i < count; i++) {
        words[i] = 3 * i + 1;
        mine[i].index = i;
        mine[i].load = TEZGUMI_MPI_GATHERED_LOAD;
        mine[i].bytes = sizeof *words;
    }
    EXPECT(tezgumi_mpi_rebalance(MPI_COMM_WORLD, mine, count, &callbacks, NULL, &chain, NULL, &report) == TEZGUMI_OK);
    EXPECT(report.max_load_before == TEZGUMI_MPI_GATHERED_ELEMENTS * TEZGUMI_MPI_GATHERED_LOAD);
    EXPECT(report.max_load_after == ((TEZGUMI_MPI_GATHERED_ELEMENTS + (uint32_t)ranks - 1) / (uint32_t)ranks) * TEZGUMI_MPI_GATHERED_LOAD);
    EXPECT(tezgumi_mpi_range(&chain, rank, &first, &end));
    for (i = first; i < end; i++) EXPECT(words[i] == 3 * i + 1);
    EXPECT(sum_of_ranks(end - first) == TEZGUMI_MPI_GATHERED_ELEMENTS);
    tezgumi_mpi_chain_free(&chain);
}

/* The greatest elements, of 1 MiB. */
static void greatest_elements(void)
{
    uint32_t i;
    deal(&f, 6, 2, IN_ORDER);
    for (i = 0; i < f.n; i++) {
        f.size[i] = TEZGUMI_MPI_GATHERED_BYTES;
        f.load[i] = 1;
        f.dealt[i] = 0;
    }
    deal_again(&f);
    EXPECT(rebalance(&f, NULL, NULL, NULL) == TEZGUMI_OK);
    expect_whole(&f);
    EXPECT(load_here(&f) <= (6u + (uint32_t)ranks - 1) / (uint32_t)ranks);
}

/* Two groups of ranks rebalance at the same time, each its own elements, all on its first rank. */
static void two_groups(void)
{
    static tezgumi_mpi_element mine[10];
    static uint32_t words[10];
    const tezgumi_mpi_callbacks callbacks = {copy_word, take_word, NULL, words};
    const uint32_t own = 100 * (uint32_t)(rank % 2);
    uint32_t i, first, end;
    tezgumi_mpi_chain chain = {0};
    MPI_Comm half;
    int size, at;
    MPI_Comm_split(MPI_COMM_WORLD, rank % 2, -rank, &half);
    MPI_Comm_size(half, &size);
    MPI_Comm_rank(half, &at);
    for (i = 0; i < 10; i++) {
        words[i] = at == 0 ? own + i : 0;
        mine[i].index = 9 - i;
        mine[i].load = 1;
        mine[i].bytes = sizeof *words;
    }
    EXPECT(tezgumi_mpi_rebalance(half, mine, at == 0 ? 10 : 0, &callbacks, NULL, &chain, NULL, NULL) == TEZGUMI_OK);
    EXPECT(chain.ranks == (uint32_t)size);
    EXPECT(tezgumi_mpi_range(&chain, at, &first, &end));
    for (i = first; i < end; i++) EXPECT(words[i] == own + i);
    tezgumi_mpi_chain_free(&chain);
    MPI_Comm_free(&half);
}

int main(int argc, char **argv)
{
    begin_tests(&argc, &argv);
    run_test("no element", none);
    run_test("ranges in order of the ranks", in_order);
    run_test("ranges in reverse order", reversed);
    run_test("scattered elements", scattered);
    run_test("elements on half of the ranks", on_half);
    run_test("a second time nothing moves", again);
    run_test("each is packed, unpacked and dropped once", each_once);
    run_test("step by step", by_steps);
    run_test("places of another partitioner", places_of_others);
    run_test("one chain for many", one_chain);
    run_test("as many elements as may be", most_elements);
    run_test("elements of 1 MiB", greatest_elements);
    run_test("two communicators at once", two_groups);
    field_free(&f);
    return end_tests();
}
