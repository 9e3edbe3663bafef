/* What is refused: on all ranks alike, with the rank and the element that it came from, and nothing is lost. */
#include "harness.h"

static field f;
static tezgumi_mpi_element mine[TEZGUMI_MPI_GATHERED_ELEMENTS + 1];
static tezgumi_mpi_report report;

/* The last rank is the one that does something wrong. */
static int wrong_here(void)
{
    return rank == ranks - 1;
}

/* Expects that this rule of the input was broken. */
static void expect_rule(int rule)
{
    EXPECT(report.failed_rule == rule);
}

/* Expects a status on all ranks, of the last rank, and that nothing has moved. */
static void expect_refused(int status, int expected, uint32_t at)
{
    EXPECT((status == TEZGUMI_BAD_INPUT || status == TEZGUMI_BAD_LOAD) == (report.failed_rule != TEZGUMI_MPI_RULE_NONE));
    EXPECT(status == expected);
    EXPECT(report.failed_rank == ranks - 1);
    EXPECT(report.failed_at == at);
    EXPECT(f.packs == 0 && f.unpacks == 0 && f.drops == 0);
    expect_whole(&f);
    expect_at(&f, f.dealt);
}

/* Rebalances what was made of mine. */
static int try_with(uint32_t count)
{
    const tezgumi_mpi_callbacks callbacks = callbacks_of(&f);
    return tezgumi_mpi_rebalance(MPI_COMM_WORLD, mine, count, &callbacks, NULL, NULL, NULL, &report);
}

/* The same where a chain is asked for, so that all elements are gathered. */
static int try_gathered(uint32_t count)
{
    const tezgumi_mpi_callbacks callbacks = callbacks_of(&f);
    tezgumi_mpi_chain chain = {0};
    const int status = tezgumi_mpi_rebalance(MPI_COMM_WORLD, mine, count, &callbacks, NULL, &chain, NULL, &report);
    EXPECT(chain.n == 0);
    tezgumi_mpi_chain_free(&chain);
    return status;
}

/* 20 elements, 5 of which at least are on the last rank. */
static uint32_t deal_some(void)
{
    deal(&f, 20, 1, IN_ORDER);
    return elements_of(&f, mine);
}

/* Where element i stands among mine, which it does. */
static uint32_t position(uint32_t i)
{
    uint32_t k = 0;
    while (mine[k].index != i) k++;
    return k;
}

static void index_twice(void)
{
    const uint32_t count = deal_some();
    if (wrong_here()) mine[position(19)].index = 18;
    expect_refused(try_with(count), TEZGUMI_MPI_BAD_INDEX, 18);
}

/* An element of another rank's. */
static void index_on_two_ranks(void)
{
    const uint32_t count = deal_some();
    if (wrong_here()) mine[position(19)].index = 0;
    expect_refused(try_with(count), TEZGUMI_MPI_BAD_INDEX, 0);
}

static void index_past_the_end(void)
{
    const uint32_t count = deal_some();
    if (wrong_here()) mine[position(19)].index = 20;
    expect_refused(try_with(count), TEZGUMI_MPI_BAD_INDEX, 20);
}

static void greatest_index(void)
{
    const uint32_t count = deal_some();
    if (wrong_here()) mine[position(19)].index = UINT32_MAX;
    expect_refused(try_with(count), TEZGUMI_MPI_BAD_INDEX, UINT32_MAX);
}

static void too_many_bytes(void)
{
    const uint32_t count = deal_some();
    if (wrong_here()) mine[position(18)].bytes = TEZGUMI_MPI_GATHERED_BYTES + 1;
    if (wrong_here()) mine[position(17)].load = TEZGUMI_MPI_GATHERED_LOAD + 1;
    expect_refused(try_gathered(count), TEZGUMI_BAD_INPUT, 18);
    expect_rule(TEZGUMI_MPI_RULE_BYTES);
}

static void too_great_a_load(void)
{
    const uint32_t count = deal_some();
    if (wrong_here()) mine[position(18)].load = mine[position(19)].load = TEZGUMI_MPI_GATHERED_LOAD + 1;
    expect_refused(try_gathered(count), TEZGUMI_BAD_LOAD, 18);
    expect_rule(TEZGUMI_MPI_RULE_LOAD);
}

static void too_many_on_a_rank(void)
{
    const uint32_t count = deal_some();
    const uint32_t too_many = wrong_here() ? TEZGUMI_MPI_GATHERED_ELEMENTS + 1 : count;
    expect_refused(try_gathered(too_many), TEZGUMI_BAD_INPUT, 0);
    expect_rule(TEZGUMI_MPI_RULE_ELEMENTS);
    expect_refused(try_with(too_many), TEZGUMI_MPI_SCATTERED, 0);
}

static void too_many_in_all(void)
{
    const uint32_t count = deal_some();
    const uint32_t most = wrong_here() ? TEZGUMI_MPI_GATHERED_ELEMENTS : count;
    const int status = try_gathered(most);
    if (ranks == 1) EXPECT(status == TEZGUMI_MPI_BAD_INDEX);
    else EXPECT(status == TEZGUMI_BAD_INPUT && report.failed_rank == -1 && report.failed_rule == TEZGUMI_MPI_RULE_ELEMENTS);
    if (ranks > 1) expect_refused(try_with(most), TEZGUMI_MPI_SCATTERED, 0);
}

static void no_elements(void)
{
    const tezgumi_mpi_callbacks callbacks = callbacks_of(&f);
    const uint32_t count = deal_some();
    expect_refused(tezgumi_mpi_rebalance(MPI_COMM_WORLD, wrong_here() ? NULL : mine, count, &callbacks, NULL, NULL, NULL, &report),
        TEZGUMI_BAD_INPUT, 0);
    expect_rule(TEZGUMI_MPI_RULE_NULL);
}

static void no_callback(void)
{
    tezgumi_mpi_callbacks rows[2];
    const uint32_t count = deal_some();
    int k;
    rows[0] = rows[1] = callbacks_of(&f);
    if (wrong_here()) rows[0].pack = NULL;
    if (wrong_here()) rows[1].unpack = NULL;
    for (k = 0; k < 3; k++) {
        const tezgumi_mpi_callbacks *given = k < 2 ? &rows[k] : wrong_here() ? NULL : &rows[0];
        const int status = tezgumi_mpi_rebalance(MPI_COMM_WORLD, mine, count, given, NULL, NULL, NULL, &report);
        expect_refused(status, TEZGUMI_BAD_INPUT, 0);
        expect_rule(TEZGUMI_MPI_RULE_CALLBACKS);
    }
}

/* Each step on a chain that is null, or was never gathered, on one rank. */
static void no_chain(void)
{
    const tezgumi_mpi_callbacks callbacks = callbacks_of(&f);
    tezgumi_mpi_chain chain = {0}, fresh = {0};
    const uint32_t count = deal_some();
    tezgumi_mpi_chain *given = wrong_here() ? NULL : &chain;
    expect_refused(tezgumi_mpi_gather(MPI_COMM_WORLD, mine, count, given, &report), TEZGUMI_BAD_INPUT, 0);
    expect_rule(TEZGUMI_MPI_RULE_NULL);
    EXPECT(chain.n == 0 && chain.ranks == 0);
    EXPECT(tezgumi_mpi_gather(MPI_COMM_WORLD, mine, count, &chain, &report) == TEZGUMI_OK);
    expect_refused(tezgumi_mpi_decide(MPI_COMM_WORLD, given, NULL, &report), TEZGUMI_BAD_INPUT, 0);
    expect_rule(TEZGUMI_MPI_RULE_NULL);
    expect_refused(tezgumi_mpi_move(MPI_COMM_WORLD, given, &callbacks, NULL, &report), TEZGUMI_BAD_INPUT, 0);
    expect_rule(TEZGUMI_MPI_RULE_NULL);
    given = wrong_here() ? &fresh : &chain;
    expect_refused(tezgumi_mpi_decide(MPI_COMM_WORLD, given, NULL, &report), TEZGUMI_BAD_INPUT, 0);
    expect_rule(TEZGUMI_MPI_RULE_CHAIN);
    expect_refused(tezgumi_mpi_move(MPI_COMM_WORLD, given, &callbacks, NULL, &report), TEZGUMI_BAD_INPUT, 0);
    expect_rule(TEZGUMI_MPI_RULE_CHAIN);
    tezgumi_mpi_chain_free(&chain);
}

static void place_that_is_no_rank(void)
{
    const tezgumi_mpi_callbacks callbacks = callbacks_of(&f);
    tezgumi_mpi_chain chain = {0};
    const uint32_t count = deal_some();
    EXPECT(tezgumi_mpi_gather(MPI_COMM_WORLD, mine, count, &chain, &report) == TEZGUMI_OK);
    if (wrong_here()) chain.new_places[3] = (uint32_t)ranks;
    expect_refused(tezgumi_mpi_move(MPI_COMM_WORLD, &chain, &callbacks, NULL, &report), TEZGUMI_BAD_INPUT, 3);
    expect_rule(TEZGUMI_MPI_RULE_PLACES);
    tezgumi_mpi_chain_free(&chain);
}

/* On the last rank a chain is not what was gathered: places that are no ranks, too many bytes, more elements than room. */
static void forged_chain(void)
{
    enum { NO_RANK, FAR_FROM_A_RANK, BYTES, ELEMENTS, ROWS };
    static const int rules[ROWS] = {TEZGUMI_MPI_RULE_PLACES, TEZGUMI_MPI_RULE_PLACES, TEZGUMI_MPI_RULE_BYTES, TEZGUMI_MPI_RULE_CHAIN};
    const tezgumi_mpi_callbacks callbacks = callbacks_of(&f);
    tezgumi_mpi_chain chain = {0};
    int k;
    for (k = 0; k < ROWS; k++) {
        const uint32_t count = deal_some();
        EXPECT(tezgumi_mpi_gather(MPI_COMM_WORLD, mine, count, &chain, &report) == TEZGUMI_OK);
        if (wrong_here() && k == NO_RANK) chain.places[3] = (uint32_t)ranks;
        if (wrong_here() && k == FAR_FROM_A_RANK) chain.places[3] = UINT32_MAX;
        if (wrong_here() && k == BYTES) chain.bytes[3] = TEZGUMI_MPI_GATHERED_BYTES + 1;
        if (wrong_here() && k == ELEMENTS) chain.n = chain.capacity + 1;
        expect_refused(tezgumi_mpi_move(MPI_COMM_WORLD, &chain, &callbacks, NULL, &report), TEZGUMI_BAD_INPUT, k == ELEMENTS ? 0 : 3);
        expect_rule(rules[k]);
        if (k == BYTES) continue; /* the planner takes it */
        expect_refused(tezgumi_mpi_decide(MPI_COMM_WORLD, &chain, NULL, &report), TEZGUMI_BAD_INPUT, k == ELEMENTS ? 0 : 3);
        expect_rule(rules[k]);
    }
    tezgumi_mpi_chain_free(&chain);
}

/* On the last rank the loads of a chain add up to more than 63 bits hold. */
static void forged_loads(void)
{
    tezgumi_mpi_chain chain = {0};
    const uint32_t count = deal_some();
    EXPECT(tezgumi_mpi_gather(MPI_COMM_WORLD, mine, count, &chain, &report) == TEZGUMI_OK);
    if (wrong_here()) chain.loads[0] = INT64_MAX;
    if (wrong_here()) chain.loads[1] = 1;
    expect_refused(tezgumi_mpi_decide(MPI_COMM_WORLD, &chain, NULL, &report), TEZGUMI_BAD_LOAD, 1);
    expect_rule(TEZGUMI_MPI_RULE_TOTAL_LOAD);
    tezgumi_mpi_chain_free(&chain);
}

/* The last rank has a chain that it gathered alone. */
static void chain_of_fewer_ranks(void)
{
    const tezgumi_mpi_callbacks callbacks = callbacks_of(&f);
    const tezgumi_mpi_element one = {1, 0, 0};
    tezgumi_mpi_chain chain = {0}, alone = {0};
    tezgumi_mpi_chain *given = wrong_here() ? &alone : &chain;
    const uint32_t count = deal_some();
    EXPECT(tezgumi_mpi_gather(MPI_COMM_SELF, &one, 1, &alone, NULL) == TEZGUMI_OK);
    EXPECT(tezgumi_mpi_gather(MPI_COMM_WORLD, mine, count, &chain, NULL) == TEZGUMI_OK);
    expect_refused(tezgumi_mpi_decide(MPI_COMM_WORLD, given, NULL, &report), TEZGUMI_BAD_INPUT, 0);
    expect_rule(TEZGUMI_MPI_RULE_CHAIN);
    expect_refused(tezgumi_mpi_move(MPI_COMM_WORLD, given, &callbacks, NULL, &report), TEZGUMI_BAD_INPUT, 0);
    expect_rule(TEZGUMI_MPI_RULE_CHAIN);
    tezgumi_mpi_chain_free(&chain);
    tezgumi_mpi_chain_free(&alone);
}

/* One rank would move an element, and the others would not. */
static void chains_that_differ(void)
{
    const tezgumi_mpi_callbacks callbacks = callbacks_of(&f);
    tezgumi_mpi_chain chain = {0};
    const uint32_t count = deal_some();
    EXPECT(tezgumi_mpi_gather(MPI_COMM_WORLD, mine, count, &chain, &report) == TEZGUMI_OK);
    if (wrong_here()) chain.new_places[0] = (uint32_t)rank;
    EXPECT(tezgumi_mpi_move(MPI_COMM_WORLD, &chain, &callbacks, NULL, &report) == TEZGUMI_MPI_DISAGREE);
    EXPECT(report.failed_rank == -1 && report.elements_moved == 0 && f.packs == 0);
    expect_at(&f, f.dealt);
    tezgumi_mpi_chain_free(&chain);
}

/* After a refusal the next call is as if there had been none. */
static void afterwards(void)
{
    tezgumi_mpi_chain chain = {0};
    const uint32_t count = deal_some();
    if (wrong_here()) mine[0].index = 20;
    EXPECT(try_with(count) == TEZGUMI_MPI_BAD_INDEX);
    EXPECT(rebalance(&f, NULL, &chain, &report) == TEZGUMI_OK);
    expect_whole(&f);
    expect_at(&f, chain.places);
    tezgumi_mpi_chain_free(&chain);
}

static void two_sides(void)
{
    const tezgumi_mpi_callbacks callbacks = callbacks_of(&f);
    MPI_Comm half, both;
    MPI_Comm_split(MPI_COMM_WORLD, rank % 2, rank, &half);
    MPI_Intercomm_create(half, 0, MPI_COMM_WORLD, 1 - rank % 2, 0, &both);
    EXPECT(tezgumi_mpi_rebalance(both, mine, deal_some(), &callbacks, NULL, NULL, NULL, &report) == TEZGUMI_BAD_INPUT);
    expect_rule(TEZGUMI_MPI_RULE_GROUPS);
    MPI_Comm_free(&both);
    MPI_Comm_free(&half);
}

/* The steps over two groups: neither sends anything, and the chain is as it was. Of one group each has as many ranks as the chain. */
static void steps_of_two_sides(void)
{
    const tezgumi_mpi_callbacks callbacks = callbacks_of(&f);
    tezgumi_mpi_chain chain = {0};
    MPI_Comm half, both;
    MPI_Comm_split(MPI_COMM_WORLD, rank % 2, rank, &half);
    MPI_Intercomm_create(half, 0, MPI_COMM_WORLD, 1 - rank % 2, 0, &both);
    EXPECT(tezgumi_mpi_gather(MPI_COMM_WORLD, mine, deal_some(), &chain, &report) == TEZGUMI_OK);
    MPI_Comm_size(both, (int *)&chain.ranks);
    EXPECT(tezgumi_mpi_decide(both, &chain, NULL, &report) == TEZGUMI_BAD_INPUT);
    expect_rule(TEZGUMI_MPI_RULE_GROUPS);
    EXPECT(tezgumi_mpi_move(both, &chain, &callbacks, NULL, &report) == TEZGUMI_BAD_INPUT);
    expect_rule(TEZGUMI_MPI_RULE_GROUPS);
    EXPECT(f.packs == 0 && chain.n == 20);
    tezgumi_mpi_chain_free(&chain);
    MPI_Comm_free(&both);
    MPI_Comm_free(&half);
}

/* 12 elements of 64 bytes in a ring of ranks, each of which is to go to the next rank. */
static void gather_ring(tezgumi_mpi_chain *chain)
{
    uint32_t i;
    deal(&f, 12 * (uint32_t)ranks, 1, IN_ORDER);
    for (i = 0; i < f.n; i++) f.size[i] = 64;
    deal_again(&f);
    EXPECT(tezgumi_mpi_gather(MPI_COMM_WORLD, mine, elements_of(&f, mine), chain, &report) == TEZGUMI_OK);
    for (i = 0; i < f.n; i++) chain->new_places[i] = (f.dealt[i] + 1) % (uint32_t)ranks;
}

/* In each exchange four elements leave each rank and four come. The sixth that leaves rank `from` fails: packing is then in
 * the second exchange, so that one has been done and the rest has not. */
static void fail_in_second(int from, int while_packing)
{
    const tezgumi_mpi_callbacks callbacks = callbacks_of(&f);
    const tezgumi_mpi_options options = {0, 4 * 64, 0, 0, 0};
    const uint32_t bad = 12 * (uint32_t)from + 5;
    tezgumi_mpi_chain chain = {0};
    uint32_t i, moved;
    gather_ring(&chain);
    if (while_packing) f.fail_pack = bad;
    else f.fail_unpack = bad;
    EXPECT(tezgumi_mpi_move(MPI_COMM_WORLD, &chain, &callbacks, &options, &report) == TEZGUMI_MPI_CALLBACK);
    EXPECT(report.failed_at == bad && report.failed_rank == (while_packing ? from : (from + 1) % ranks));
    EXPECT(report.exchanges == 1 && report.elements_moved == 4 * (uint32_t)ranks);
    EXPECT(report.bytes_moved == 4 * 64 * (uint64_t)ranks);
    for (i = moved = 0; i < f.n; i++) moved += chain.places[i] != f.dealt[i];
    EXPECT(moved == 4 * (uint32_t)ranks);
    expect_whole(&f);
    expect_at(&f, chain.places);
    f.fail_pack = f.fail_unpack = UINT32_MAX;
    EXPECT(tezgumi_mpi_move(MPI_COMM_WORLD, &chain, &callbacks, &options, &report) == TEZGUMI_OK);
    EXPECT(report.elements_moved == 8 * (uint32_t)ranks && report.exchanges == 2);
    expect_whole(&f);
    expect_at(&f, chain.new_places);
    tezgumi_mpi_chain_free(&chain);
}

static void pack_that_fails(void)
{
    int from;
    for (from = 0; from < ranks; from++) fail_in_second(from, 1);
}

static void unpack_that_fails(void)
{
    int from;
    for (from = 0; from < ranks; from++) fail_in_second(from, 0);
}

/* In one call: nothing has moved. All are on rank 0, and the last one, which weighs more than all others together, leaves
 * it because it is alone in its range. */
static void callback_in_one_call(void)
{
    uint32_t i;
    deal(&f, 100, 4, IN_ORDER);
    for (i = 0; i < 100; i++) f.dealt[i] = 0;
    f.load[99] = 1000000;
    deal_again(&f);
    f.fail_pack = 99;
    EXPECT(rebalance(&f, NULL, NULL, &report) == TEZGUMI_MPI_CALLBACK);
    EXPECT(report.failed_rank == 0 && report.failed_at == 99 && report.exchanges == 0 && report.elements_moved == 0);
    expect_whole(&f);
    expect_at(&f, f.dealt);
}

/* Two ranks fail in different ways: all return what has the least value. */
static void two_reasons(void)
{
    const tezgumi_mpi_options options = {rank == 0 ? -1 : 0, 0, 0, 0, 0};
    const tezgumi_mpi_callbacks callbacks = callbacks_of(&f);
    tezgumi_mpi_chain chain = {0};
    gather_ring(&chain);
    f.fail_pack = 0;
    if (rank == 1) f.fail_pack = 12 + 2;
    EXPECT(tezgumi_mpi_decide(MPI_COMM_WORLD, &chain, &options, &report) == TEZGUMI_BAD_INPUT);
    EXPECT(report.failed_rank == 0 && report.failed_rule == TEZGUMI_MPI_RULE_TOLERANCE);
    EXPECT(tezgumi_mpi_move(MPI_COMM_WORLD, &chain, &callbacks, NULL, &report) == TEZGUMI_MPI_CALLBACK);
    EXPECT(report.failed_rank == 1 && report.failed_at == 14 && report.failed_rule == TEZGUMI_MPI_RULE_NONE);
    expect_same(report.failed_at);
    expect_whole(&f);
    expect_at(&f, f.dealt);
    tezgumi_mpi_chain_free(&chain);
}

static void names(void)
{
    int status, rule, other;
    for (rule = TEZGUMI_MPI_RULE_NONE; rule <= TEZGUMI_MPI_RULE_FIELDS + 1; rule++)
        for (other = TEZGUMI_MPI_RULE_NONE; other < rule; other++)
            EXPECT(strcmp(tezgumi_mpi_rule_name(other), tezgumi_mpi_rule_name(rule)) != 0);
    for (status = TEZGUMI_MPI_SCATTERED; status <= TEZGUMI_MPI_BAD_INDEX; status++)
        EXPECT(strcmp(tezgumi_mpi_status_name(status), tezgumi_mpi_status_name(1000)) != 0);
    EXPECT(strcmp(tezgumi_mpi_status_name(TEZGUMI_BAD_LOAD), tezgumi_status_name(TEZGUMI_BAD_LOAD)) == 0);
}

int main(int argc, char **argv)
{
    begin_tests(&argc, &argv);
    run_test("an index twice on a rank", index_twice);
    run_test("an index on two ranks", index_on_two_ranks);
    run_test("an index past the end", index_past_the_end);
    run_test("the greatest index", greatest_index);
    run_test("too many bytes", too_many_bytes);
    run_test("too great a load", too_great_a_load);
    run_test("too many elements on a rank", too_many_on_a_rank);
    run_test("too many elements in all", too_many_in_all);
    run_test("null elements", no_elements);
    run_test("null callbacks", no_callback);
    run_test("null chain", no_chain);
    run_test("a place that is no rank", place_that_is_no_rank);
    run_test("a chain that is not what was gathered", forged_chain);
    run_test("loads that add up to too much", forged_loads);
    run_test("a good call after a refused one", afterwards);
    run_test("each status and each rule has a name", names);
    if (ranks > 1) {
        run_test("a communicator of two groups", two_sides);
        run_test("the steps over two groups", steps_of_two_sides);
        run_test("a chain of fewer ranks", chain_of_fewer_ranks);
        run_test("chains that differ", chains_that_differ);
        run_test("a pack that fails", pack_that_fails);
        run_test("an unpack that fails", unpack_that_fails);
        run_test("a pack that fails in one call", callback_in_one_call);
        run_test("two ranks fail in different ways", two_reasons);
    }
    field_free(&f);
    return end_tests();
}
