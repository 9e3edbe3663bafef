/* A planner that goes wrong on one rank is found out on all. Link with --wrap for tezgumi_decide, tezgumi_plan,
 * tezgumi_refine, tezgumi_abi and MPI_Allgatherv. */
#include "harness.h"

static field f;
static tezgumi_mpi_report report;
static int wrong_here, mpi_fails, decisions;
static uint32_t was_near; /* whether the cuts of the last decision within a tolerance were near the present ones */
/* What goes wrong in a decision within a tolerance. */
static enum { PLACES, NO_BOTTLENECK, GREAT_BOTTLENECK, LEAST, LEAST_CUTS, MOVED, PRESENT } wrong;

int32_t __real_tezgumi_decide(
    const uint64_t *loads, size_t loads_len, const uint32_t *bytes, size_t bytes_len,
    const uint32_t *places, size_t places_len, uint32_t procs, uint32_t pes,
    uint32_t *new_places, size_t new_places_len, uint64_t *bottleneck, uint64_t *moved,
    uint32_t *cuts, size_t cuts_len, uint32_t *stops, size_t stops_len, size_t *stops_count,
    uint32_t *names, size_t names_len,
    int64_t *block_prices, size_t block_prices_len, int64_t *pe_prices, size_t pe_prices_len);
int32_t __wrap_tezgumi_decide(
    const uint64_t *loads, size_t loads_len, const uint32_t *bytes, size_t bytes_len,
    const uint32_t *places, size_t places_len, uint32_t procs, uint32_t pes,
    uint32_t *new_places, size_t new_places_len, uint64_t *bottleneck, uint64_t *moved,
    uint32_t *cuts, size_t cuts_len, uint32_t *stops, size_t stops_len, size_t *stops_count,
    uint32_t *names, size_t names_len,
    int64_t *block_prices, size_t block_prices_len, int64_t *pe_prices, size_t pe_prices_len);
int32_t __real_tezgumi_plan(
    const uint64_t *loads, size_t loads_len, const uint32_t *bytes, size_t bytes_len,
    const uint32_t *places, size_t places_len, uint32_t procs, uint32_t pes,
    uint32_t *new_places, size_t new_places_len, uint64_t *bottleneck, uint64_t *moved);
int32_t __wrap_tezgumi_plan(
    const uint64_t *loads, size_t loads_len, const uint32_t *bytes, size_t bytes_len,
    const uint32_t *places, size_t places_len, uint32_t procs, uint32_t pes,
    uint32_t *new_places, size_t new_places_len, uint64_t *bottleneck, uint64_t *moved);
extern __typeof__(tezgumi_refine) __real_tezgumi_refine, __wrap_tezgumi_refine;
uint32_t __wrap_tezgumi_abi(void);
int __wrap_MPI_Allgatherv(const void *out, int out_count, MPI_Datatype out_type, void *in, const int *in_counts,
    const int *in_starts, MPI_Datatype in_type, MPI_Comm comm);

/* The last element goes elsewhere than its block, or with one rank to a place that is none. */
static void spoil(uint32_t *new_places, size_t n, uint32_t pes)
{
    if (wrong_here && n > 0) new_places[n - 1] = pes == 1 ? 1 : (new_places[n - 1] + 1) % pes;
}

int32_t __wrap_tezgumi_decide(
    const uint64_t *loads, size_t loads_len, const uint32_t *bytes, size_t bytes_len,
    const uint32_t *places, size_t places_len, uint32_t procs, uint32_t pes,
    uint32_t *new_places, size_t new_places_len, uint64_t *bottleneck, uint64_t *moved,
    uint32_t *cuts, size_t cuts_len, uint32_t *stops, size_t stops_len, size_t *stops_count,
    uint32_t *names, size_t names_len,
    int64_t *block_prices, size_t block_prices_len, int64_t *pe_prices, size_t pe_prices_len)
{
    const int32_t status = __real_tezgumi_decide(loads, loads_len, bytes, bytes_len, places, places_len, procs, pes,
        new_places, new_places_len, bottleneck, moved, cuts, cuts_len, stops, stops_len, stops_count, names, names_len,
        block_prices, block_prices_len, pe_prices, pe_prices_len);
    spoil(new_places, new_places_len, pes);
    decisions++;
    return status;
}

int32_t __wrap_tezgumi_plan(
    const uint64_t *loads, size_t loads_len, const uint32_t *bytes, size_t bytes_len,
    const uint32_t *places, size_t places_len, uint32_t procs, uint32_t pes,
    uint32_t *new_places, size_t new_places_len, uint64_t *bottleneck, uint64_t *moved)
{
    const int32_t status = __real_tezgumi_plan(loads, loads_len, bytes, bytes_len, places, places_len, procs, pes,
        new_places, new_places_len, bottleneck, moved);
    spoil(new_places, new_places_len, pes);
    return status;
}

int32_t __wrap_tezgumi_refine(const uint64_t *l, size_t l_len, const uint32_t *b, size_t b_len, const uint32_t *p, size_t p_len,
    uint32_t procs, uint32_t pes, uint32_t tolerance, uint32_t keep_order, uint32_t *to, size_t to_len, uint64_t *least,
    uint64_t *bottleneck, uint64_t *moved, uint32_t *near_present, uint32_t *cuts, size_t cuts_len, uint32_t *stops, size_t stops_len,
    size_t *stops_count, uint32_t *names, size_t names_len, int64_t *u, size_t u_len, int64_t *v, size_t v_len, uint32_t *least_cuts,
    size_t least_len, uint32_t *order, size_t order_len, uint32_t *present, size_t present_len, size_t *starts,
    size_t starts_len, uint32_t *at, size_t at_len, uint64_t *rises, size_t rises_len, size_t *steps)
{
    const int32_t status = __real_tezgumi_refine(l, l_len, b, b_len, p, p_len, procs, pes, tolerance, keep_order, to, to_len, least,
        bottleneck, moved, near_present, cuts, cuts_len, stops, stops_len, stops_count, names, names_len, u, u_len, v, v_len, least_cuts,
        least_len, order, order_len, present, present_len, starts, starts_len, at, at_len, rises, rises_len, steps);
    was_near = *near_present;
    if (!wrong_here) return status;
    switch (wrong) {
    case NO_BOTTLENECK: *bottleneck = 0; break;
    case GREAT_BOTTLENECK: *bottleneck = 99999; break;
    case LEAST: *least += 1; break;
    case LEAST_CUTS: least_cuts[pes] -= 1; break;
    case MOVED: *moved += 1; break;
    case PRESENT: present[1] += present[1] < present[2] ? 1 : -1; break;
    default: spoil(to, to_len, pes);
    }
    return status;
}

uint32_t __wrap_tezgumi_abi(void)
{
    return wrong_here ? TEZGUMI_ABI + 1 : TEZGUMI_ABI;
}

int __wrap_MPI_Allgatherv(const void *out, int out_count, MPI_Datatype out_type, void *in, const int *in_counts,
    const int *in_starts, MPI_Datatype in_type, MPI_Comm comm)
{
    if (mpi_fails) return MPI_ERR_OTHER;
    return PMPI_Allgatherv(out, out_count, out_type, in, in_counts, in_starts, in_type, comm);
}

static void expect_left(void)
{
    EXPECT(f.packs == 0 && f.unpacks == 0 && f.drops == 0);
    expect_whole(&f);
    expect_at(&f, f.dealt);
}

/* Decides on a field that is dealt so, with a wrong planner on the last rank. */
static int decide_wrongly(int skip_check, int refine, dealing how, tezgumi_mpi_chain *chain)
{
    static tezgumi_mpi_element mine[FIELD_MOST];
    const tezgumi_mpi_options options = {refine ? 0.5 : 0, 0, skip_check, refine, 0};
    int status;
    deal(&f, 50, 2, how);
    EXPECT(tezgumi_mpi_gather(MPI_COMM_WORLD, mine, elements_of(&f, mine), chain, &report) == TEZGUMI_OK);
    wrong_here = rank == ranks - 1;
    status = tezgumi_mpi_decide(MPI_COMM_WORLD, chain, &options, &report);
    wrong_here = 0;
    expect_left();
    expect_at(&f, chain->new_places);
    return status;
}

static void wrong_and_checked(void)
{
    tezgumi_mpi_chain chain = {0};
    EXPECT(decide_wrongly(0, 0, SCATTERED, &chain) == TEZGUMI_MPI_WRONG_PLAN);
    EXPECT(report.failed_rank == ranks - 1 && report.failed_at == TEZGUMI_PLACES_WRONG);
    tezgumi_mpi_chain_free(&chain);
}

/* Places of its own, and the same places with a load of its own. */
static void wrong_and_unchecked(void)
{
    tezgumi_mpi_chain chain = {0};
    EXPECT(decide_wrongly(1, 0, SCATTERED, &chain) == TEZGUMI_MPI_DISAGREE);
    EXPECT(report.failed_rank == -1);
    wrong = GREAT_BOTTLENECK;
    EXPECT(decide_wrongly(1, 1, SCATTERED, &chain) == TEZGUMI_MPI_DISAGREE);
    EXPECT(report.failed_rank == -1);
    wrong = PLACES;
    tezgumi_mpi_chain_free(&chain);
}

/* Each number and list that is wrong, where the cuts are near the present ones, and where the decision is the plan. */
static void wrong_within(void)
{
    static const struct { int wrong; uint32_t near_flaw, plan_flaw; } rows[] = {
        {PLACES, TEZGUMI_PLACES_WRONG, TEZGUMI_PLACES_WRONG}, {NO_BOTTLENECK, TEZGUMI_BOTTLENECK_WRONG, TEZGUMI_HEAVY},
        {GREAT_BOTTLENECK, TEZGUMI_BOTTLENECK_WRONG, TEZGUMI_FENCE_LIGHT}, {LEAST, TEZGUMI_FENCE_LIGHT, TEZGUMI_LEAST_WRONG},
        {LEAST_CUTS, TEZGUMI_CUT_END, TEZGUMI_LEAST_WRONG}, {MOVED, TEZGUMI_MOVED_WRONG, TEZGUMI_MOVED_WRONG},
        {PRESENT, TEZGUMI_ORDER_WRONG, TEZGUMI_OK}};
    tezgumi_mpi_chain chain = {0};
    uint32_t k;
    for (k = 0; k < 2 * sizeof rows / sizeof *rows; k++) {
        const int is_near = k % 2 && ranks > 1; /* one rank has no better cuts than the plan's */
        const uint32_t flaw = is_near ? rows[k / 2].near_flaw : rows[k / 2].plan_flaw;
        wrong = rows[k / 2].wrong;
        if (flaw == TEZGUMI_OK) continue; /* nobody reads it */
        EXPECT(decide_wrongly(0, 1, k % 2 ? IN_ORDER : SCATTERED, &chain) == TEZGUMI_MPI_WRONG_PLAN);
        EXPECT(was_near == (uint32_t)is_near && report.failed_rank == ranks - 1 && report.failed_at == flaw);
    }
    wrong = PLACES;
    tezgumi_mpi_chain_free(&chain);
}

/* Certificates are made only where they are checked. */
static void certificates(void)
{
    tezgumi_mpi_chain chain = {0};
    decisions = 0;
    decide_wrongly(0, 0, SCATTERED, &chain);
    EXPECT(decisions == 1);
    decide_wrongly(1, 0, SCATTERED, &chain);
    EXPECT(decisions == 1);
    tezgumi_mpi_chain_free(&chain);
}

static void other_library(void)
{
    deal(&f, 50, 2, SCATTERED);
    wrong_here = rank == ranks - 1;
    EXPECT(rebalance(&f, NULL, NULL, &report) == TEZGUMI_MPI_LIBRARY);
    wrong_here = 0;
    EXPECT(report.failed_rank == ranks - 1);
    expect_left();
}

static void failing_mpi(void)
{
    tezgumi_mpi_chain chain = {0};
    deal(&f, 50, 2, SCATTERED);
    mpi_fails = 1;
    EXPECT(rebalance(&f, NULL, &chain, &report) == TEZGUMI_MPI_ERROR);
    mpi_fails = 0;
    tezgumi_mpi_chain_free(&chain);
    expect_left();
}

int main(int argc, char **argv)
{
    begin_tests(&argc, &argv);
    run_test("a plan with a flaw on one rank", wrong_and_checked);
    run_test("a decision within a tolerance with a flaw on one rank", wrong_within);
    if (ranks > 1) run_test("a plan of its own on one rank, without the checker", wrong_and_unchecked);
    run_test("certificates only where they are checked", certificates);
    run_test("another library on one rank", other_library);
    run_test("an MPI call that fails", failing_mpi);
    field_free(&f);
    return end_tests();
}
