/* Decisions on parts that go wrong: windows that are too narrow, which a wider search makes good, and a planner that goes wrong on
 * one rank, which is found out on all. Link with --wrap for tezgumi_mpi_enough, tezgumi_mpi_windows_by_totals,
 * tezgumi_mpi_windows_by_walks, tezgumi_part_walk, tezgumi_divide, tezgumi_name and tezgumi_keep_order. */
#include "internal.h"
#include "parts.h"

static field f;
static tezgumi_mpi_layout layout;
static tezgumi_mpi_report report;
static int wrong_totals, wrong_walks; /* how many searches are still to go wrong here */
static int wrong_divide, wrong_name;  /* whether the planner goes wrong here */
static int wrong_cuts;                /* how the cuts that keep the order go wrong here */
static int32_t walk_status;           /* what each walk here answers, if it is not TEZGUMI_OK */

extern __typeof__(tezgumi_mpi_windows_by_totals) __real_tezgumi_mpi_windows_by_totals, __wrap_tezgumi_mpi_windows_by_totals;
extern __typeof__(tezgumi_mpi_windows_by_walks) __real_tezgumi_mpi_windows_by_walks, __wrap_tezgumi_mpi_windows_by_walks;
extern __typeof__(tezgumi_part_walk) __real_tezgumi_part_walk, __wrap_tezgumi_part_walk;
extern __typeof__(tezgumi_divide) __real_tezgumi_divide, __wrap_tezgumi_divide;
extern __typeof__(tezgumi_name) __real_tezgumi_name, __wrap_tezgumi_name;
extern __typeof__(tezgumi_keep_order) __real_tezgumi_keep_order, __wrap_tezgumi_keep_order;

void __wrap_tezgumi_mpi_windows_by_totals(tezgumi_mpi_search *s)
{
    __real_tezgumi_mpi_windows_by_totals(s);
    if (wrong_totals > 0 && wrong_totals--) s->windows.count = 0;
}

int __wrap_tezgumi_mpi_windows_by_walks(tezgumi_mpi_search *s)
{
    const int status = __real_tezgumi_mpi_windows_by_walks(s);
    if (wrong_walks > 0 && wrong_walks--) s->windows.upper[0] = s->windows.lower[0] = s->layout->n;
    return status;
}

int32_t __wrap_tezgumi_part_walk(const uint64_t *loads, size_t loads_len, uint32_t pes, const uint64_t *limits, size_t limits_len,
    uint32_t *closed, size_t closed_len, uint64_t *filled, size_t filled_len)
{
    if (walk_status != TEZGUMI_OK) return walk_status;
    return __real_tezgumi_part_walk(loads, loads_len, pes, limits, limits_len, closed, closed_len, filled, filled_len);
}

/* The first cut one element further, or back. */
int32_t __wrap_tezgumi_divide(const uint64_t *loads, size_t loads_len, uint32_t pes, uint64_t *bottleneck, uint32_t *cuts,
    size_t cuts_len, uint32_t *stops, size_t stops_len, size_t *stops_count)
{
    const int32_t status = __real_tezgumi_divide(loads, loads_len, pes, bottleneck, cuts, cuts_len, stops, stops_len, stops_count);
    if (wrong_divide && cuts_len > 2) cuts[1] += cuts[1] < cuts[2] ? 1 : -1;
    return status;
}

/* The names one further. */
int32_t __wrap_tezgumi_name(const uint64_t *held, size_t held_len, uint32_t pes, uint32_t *names, size_t names_len,
    int64_t *block_prices, size_t block_prices_len, int64_t *pe_prices, size_t pe_prices_len, uint64_t *moved)
{
    const int32_t status = __real_tezgumi_name(
        held, held_len, pes, names, names_len, block_prices, block_prices_len, pe_prices, pe_prices_len, moved);
    size_t b;
    for (b = 0; wrong_name && b < names_len; b++) names[b] = (names[b] + 1) % pes;
    return status;
}

enum { RIGHT, NEAR, FAR, REFUSED };

/* The first cut beside where it belongs, or at the end of the second block; or none. */
int32_t __wrap_tezgumi_keep_order(const uint64_t *loads, size_t loads_len, const uint64_t *bytes, size_t bytes_len,
    const uint32_t *starts, size_t starts_len, const uint32_t *present, size_t present_len, const uint32_t *lower, size_t lower_len,
    const uint32_t *upper, size_t upper_len, const uint32_t *first, size_t first_len, const uint32_t *last, size_t last_len,
    uint64_t limit, uint32_t *cuts, size_t cuts_len)
{
    const int32_t status = __real_tezgumi_keep_order(loads, loads_len, bytes, bytes_len, starts, starts_len, present, present_len, lower,
        lower_len, upper, upper_len, first, first_len, last, last_len, limit, cuts, cuts_len);
    if (wrong_cuts == REFUSED) return TEZGUMI_BAD_INPUT;
    if (wrong_cuts == NEAR) cuts[1] += cuts[1] < cuts[2] ? 1 : -1;
    if (wrong_cuts == FAR) cuts[1] = cuts[2];
    return status;
}

static int decide(int skip_check)
{
    const tezgumi_mpi_part part = part_of(&f);
    const tezgumi_mpi_options options = {0, 0, skip_check, 0, 0};
    return tezgumi_mpi_decide_part(MPI_COMM_WORLD, &part, &options, &layout, &report);
}

/* A field whose ranks are far from even, and which a decision moves. */
static void deal_uneven(void)
{
    deal_parts(&f, 200, 4, EVEN, 0);
}

/* Decides rightly, and then with searches that go wrong: the second time it is the same. */
static void expect_made_good(int totals, int walks)
{
    uint32_t right[FIELD_MOST], made_good[FIELD_MOST];
    deal_uneven();
    EXPECT(decide(0) == TEZGUMI_OK && report.retries == 0);
    places_by(&layout, right);
    wrong_totals = totals;
    wrong_walks = walks;
    EXPECT(decide(0) == TEZGUMI_OK && report.retries == 1);
    EXPECT(wrong_totals == 0 && wrong_walks == 0 && report.failed_rank == -1);
    places_by(&layout, made_good);
    EXPECT(memcmp(right, made_good, 200 * sizeof *right) == 0);
}

static void narrow_windows(void)
{
    expect_made_good(1, 0);
}

static void wrong_ends(void)
{
    enough = 0;
    expect_made_good(0, 1);
    enough = UINT64_MAX;
}

static void narrow_twice(void)
{
    deal_uneven();
    wrong_totals = 2;
    EXPECT(decide(0) == TEZGUMI_MPI_WRONG_PLAN);
    EXPECT(wrong_totals == 0 && report.retries == 1 && report.failed_rank >= 0);
    EXPECT(report.failed_at == TEZGUMI_HEAVY || report.failed_at == TEZGUMI_FENCE_LIGHT);
    EXPECT(layout.n == 0 && layout.ranks == 0);
}

/* In one pass the first and the last rank fail, in different ways: all return what has the least value, whichever of the two the
 * pass comes to first. A flaw of the planner, which is less than no memory, is made good by the wider search. */
static void two_failures(void)
{
    static const struct { int32_t first, last; int expected; } rows[] = {
        {TEZGUMI_NO_MEMORY, TEZGUMI_TOO_LARGE, TEZGUMI_TOO_LARGE}, {TEZGUMI_TOO_LARGE, TEZGUMI_NO_MEMORY, TEZGUMI_TOO_LARGE},
        {TEZGUMI_NO_MEMORY, TEZGUMI_OK, TEZGUMI_NO_MEMORY}, {TEZGUMI_OK, TEZGUMI_NO_MEMORY, TEZGUMI_NO_MEMORY},
        {TEZGUMI_NO_MEMORY, TEZGUMI_BAD_INPUT, TEZGUMI_OK}, {TEZGUMI_BAD_INPUT, TEZGUMI_NO_MEMORY, TEZGUMI_OK}};
    uint32_t k;
    enough = 0;
    for (k = 0; k < 2 * sizeof rows / sizeof *rows; k++) {
        const int expected = rows[k / 2].expected;
        deal(&f, 200, 4, k % 2 ? REVERSED : IN_ORDER);
        walk_status = rank == 0 ? rows[k / 2].first : rank == ranks - 1 ? rows[k / 2].last : TEZGUMI_OK;
        EXPECT(decide(0) == expected && report.retries == (expected == TEZGUMI_OK));
        if (expected != TEZGUMI_OK) EXPECT(report.failed_rank == (rows[k / 2].first == expected ? 0 : ranks - 1));
    }
    walk_status = TEZGUMI_OK;
    enough = UINT64_MAX;
}

static void cuts_of_its_own(void)
{
    deal_uneven();
    wrong_divide = rank == ranks - 1;
    EXPECT(decide(0) == TEZGUMI_MPI_DISAGREE && report.failed_rank == -1);
    EXPECT(decide(1) == TEZGUMI_MPI_DISAGREE);
    wrong_divide = 1;
    EXPECT(decide(0) == TEZGUMI_MPI_WRONG_PLAN && report.retries == 1);
    wrong_divide = 0;
}

/* Cuts that keep the order, of ranks of which the first has all elements. */
static int keep(int wrong, int skip_check)
{
    const tezgumi_mpi_options options = {0.02, 0, skip_check, 1, 1};
    tezgumi_mpi_part part;
    uint32_t i;
    int status;
    deal(&f, 200, 4, IN_ORDER);
    for (i = 0; i < f.n; i++) f.dealt[i] = 0;
    deal_again(&f);
    part = part_of(&f);
    wrong_cuts = wrong;
    status = tezgumi_mpi_decide_part(MPI_COMM_WORLD, &part, &options, &layout, &report);
    wrong_cuts = RIGHT;
    return status;
}

static void wrong_kept_cuts(void)
{
    EXPECT(keep(RIGHT, 0) == TEZGUMI_OK && report.elements_moved > 0);
    EXPECT(keep(rank == ranks - 1 ? NEAR : RIGHT, 0) == TEZGUMI_MPI_DISAGREE && report.failed_rank == -1);
    EXPECT(keep(rank == ranks - 1 ? NEAR : RIGHT, 1) == TEZGUMI_MPI_DISAGREE);
    EXPECT(keep(FAR, 0) == TEZGUMI_MPI_WRONG_PLAN && layout.n == 0 && layout.ranks == 0);
    EXPECT(keep(rank == ranks - 1 ? REFUSED : RIGHT, 0) == TEZGUMI_MPI_WRONG_PLAN && report.failed_rank == ranks - 1);
}

static void names_of_its_own(void)
{
    deal_uneven();
    wrong_name = rank == ranks - 1;
    EXPECT(decide(0) == TEZGUMI_MPI_WRONG_PLAN && report.failed_rank == ranks - 1);
    EXPECT(report.failed_at >= TEZGUMI_PRICE_GAP && report.failed_at <= TEZGUMI_MOVED_WRONG);
    EXPECT(decide(1) == TEZGUMI_MPI_DISAGREE);
    wrong_name = 0;
}

int main(int argc, char **argv)
{
    begin_tests(&argc, &argv);
    run_test("windows that are too narrow", narrow_windows);
    run_test("ends that are wrong", wrong_ends);
    run_test("windows that are too narrow twice", narrow_twice);
    run_test("two failures in one pass", two_failures);
    run_test("cuts of its own on one rank", cuts_of_its_own);
    run_test("names of its own on one rank", names_of_its_own);
    run_test("cuts that keep the order go wrong", wrong_kept_cuts);
    field_free(&f);
    tezgumi_mpi_layout_free(&layout);
    return end_tests();
}
