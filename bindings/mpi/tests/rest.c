/* A rebalance of parts that a callback ends in a later exchange, and that goes on by its layout with what each rank holds then. Link
 * with --wrap for tezgumi_mpi_enough. */
#include "parts.h"

static field f;
static tezgumi_mpi_layout layout;
static tezgumi_mpi_report report;
static tezgumi_mpi_element mine[FIELD_MOST];
static uint32_t places[FIELD_MOST];  /* the rank of each element by the decision */
static uint32_t movers[FIELD_MOST];  /* the elements that leave their rank, in order of index */
static uint32_t movers_count;

/* Learns what is decided of the field. */
static void learn_decision(void)
{
    const tezgumi_mpi_part part = part_of(&f);
    uint32_t i;
    EXPECT(tezgumi_mpi_decide_part(MPI_COMM_WORLD, &part, NULL, &layout, &report) == TEZGUMI_OK);
    places_by(&layout, places);
    for (i = movers_count = 0; i < f.n; i++)
        if (places[i] != f.dealt[i]) movers[movers_count++] = i;
    tezgumi_mpi_layout_free(&layout);
}

/* A field that one rank holds, or all. */
static void begin(int spread)
{
    deal_parts(&f, 300, 5, EVEN, spread);
    learn_decision();
}

/* A field of which the first rank holds nearly all, and the others the end. Those to the second come before its own. */
static void begin_heavy_first(void)
{
    uint32_t i;
    deal_parts(&f, 300, 5, EVEN, 0);
    for (i = 0; i < f.n; i++) f.dealt[i] = i < 280 ? 0 : 1 + (i - 280) * ((uint32_t)ranks - 1) / 20;
    deal_again(&f);
    learn_decision();
}

/* Rebalances the elements that are held now, some 4 of them in an exchange. */
static int go(void)
{
    const tezgumi_mpi_options options = {0, 1000, 0, 0, 0};
    const tezgumi_mpi_callbacks callbacks = callbacks_of(&f);
    return tezgumi_mpi_rebalance(MPI_COMM_WORLD, mine, elements_of(&f, mine), &callbacks, &options, NULL, &layout, &report);
}

/* Lets one element fail. */
static void go_until(uint32_t bad, int while_packing)
{
    f.fail_pack = while_packing ? bad : UINT32_MAX;
    f.fail_unpack = while_packing ? UINT32_MAX : bad;
    EXPECT(go() == TEZGUMI_MPI_CALLBACK && report.failed_at == bad);
    EXPECT(report.failed_rank == (int)(while_packing ? f.dealt[bad] : places[bad]));
    EXPECT((layout.move != 0) == (report.exchanges > 0));
    f.fail_pack = f.fail_unpack = UINT32_MAX;
    expect_whole(&f);
}

/* All are where they were to go, and the layout says so. */
static void expect_gone_on(void)
{
    uint32_t i, r;
    expect_whole(&f);
    expect_at(&f, places);
    EXPECT(layout.n == f.n && layout.ranks == (uint32_t)ranks && layout.move == 0);
    for (r = i = 0; r < layout.ranks; r++) {
        uint32_t k;
        for (k = 0; k < layout.counts[r]; k++, i++) EXPECT(places[layout.firsts[r] + k] == r);
    }
    EXPECT(i == f.n);
}

/* An element fails in the first exchange, in one further on, or in the last, while it is packed or unpacked. */
static void from_each_exchange(void)
{
    uint32_t k, moved;
    for (k = 0; k < 16; k++) {
        begin(k % 4 < 2);
        EXPECT(movers_count > 50);
        go_until(movers[(movers_count - 1) * (k / 4) / 3], k % 2);
        EXPECT((report.exchanges > 0) == (k >= 4));
        moved = report.elements_moved;
        EXPECT(go() == TEZGUMI_OK && report.exchanges > 0);
        EXPECT(moved + report.elements_moved == movers_count);
        expect_gone_on();
    }
}

/* One failure after another. */
static void again_and_again(void)
{
    uint32_t k, moved = 0;
    begin(0);
    for (k = 1; k < 10; k++) {
        go_until(movers[(movers_count - 1) * k / 9], k % 2);
        moved += report.elements_moved;
    }
    EXPECT(go() == TEZGUMI_OK);
    EXPECT(moved + report.elements_moved == movers_count);
    expect_gone_on();
    EXPECT(go() == TEZGUMI_OK && report.elements_moved == 0); /* a new decision: nothing is to be gained */
    expect_gone_on();
}

/* Rebalances with some of what is held now. */
static int go_with(uint32_t count, tezgumi_mpi_chain *chain, tezgumi_mpi_layout *given)
{
    const tezgumi_mpi_callbacks callbacks = callbacks_of(&f);
    return tezgumi_mpi_rebalance(MPI_COMM_WORLD, mine, count, &callbacks, NULL, chain, given, &report);
}

static void expect_refused(int status, int expected, int by, uint32_t at)
{
    EXPECT(status == expected && report.failed_rank == by && report.failed_at == at);
    EXPECT(layout.move != 0 && f.packs == 0 && f.unpacks == 0 && f.drops == 0);
}

/* What a rank may hold wrongly: the one that had all elements, and the one to which the first has gone. */
static void other_elements(void)
{
    const int giver = (int)f.dealt[0], taker = (int)places[movers[0]];
    uint32_t count = elements_of(&f, mine), kept = 0, last = movers[movers_count - 1];
    tezgumi_mpi_element first = mine[0];
    while (places[kept] != (uint32_t)giver) kept++;
    if (rank == giver) mine[0].index = mine[1].index; /* one twice */
    MPI_Bcast(&first.index, 1, MPI_UINT32_T, giver, MPI_COMM_WORLD);
    EXPECT(go_with(count, NULL, &layout) == TEZGUMI_MPI_BAD_INDEX && report.failed_rank == giver);
    if (rank == giver) mine[0].index = movers[0]; /* one that has gone */
    expect_refused(go_with(count, NULL, &layout), TEZGUMI_MPI_BAD_INDEX, giver, movers[0]);
    if (rank == giver) mine[0].index = f.n; /* none */
    expect_refused(go_with(count, NULL, &layout), TEZGUMI_MPI_BAD_INDEX, giver, f.n);
    count = elements_of(&f, mine);
    if (rank == giver) count--; /* one is missing */
    EXPECT(go_with(count, NULL, &layout) == TEZGUMI_MPI_BAD_INDEX && report.failed_rank == giver);
    count = elements_of(&f, mine);
    if (rank == taker) mine[0].index = last; /* one that has not come */
    expect_refused(go_with(count, NULL, &layout), TEZGUMI_MPI_BAD_INDEX, taker, last);
    count = rank == taker ? 0 : elements_of(&f, mine); /* all that have come are missing */
    expect_refused(go_with(count, NULL, &layout), TEZGUMI_MPI_BAD_INDEX, taker, movers[0]);
}

/* What else does not fit the move that is under way, on the last rank. */
static void other_calls(void)
{
    const int wrong = rank == ranks - 1;
    const uint32_t count = elements_of(&f, mine);
    tezgumi_mpi_layout fresh = {0};
    tezgumi_mpi_chain chain = {0};
    expect_refused(go_with(count, NULL, wrong ? NULL : &layout), TEZGUMI_BAD_INPUT, ranks - 1, 0);
    EXPECT(report.failed_rule == TEZGUMI_MPI_RULE_LAYOUT);
    expect_refused(go_with(count, NULL, wrong ? &fresh : &layout), TEZGUMI_BAD_INPUT, ranks - 1, 0);
    EXPECT(report.failed_rule == TEZGUMI_MPI_RULE_LAYOUT);
    expect_refused(go_with(count, wrong ? &chain : NULL, &layout), TEZGUMI_BAD_INPUT, ranks - 1, 0);
    EXPECT(report.failed_rule == TEZGUMI_MPI_RULE_LAYOUT);
    layout.names[0] ^= (uint32_t)wrong;
    expect_refused(go_with(count, NULL, &layout), TEZGUMI_BAD_INPUT, ranks - 1, 0);
    EXPECT(report.failed_rule == TEZGUMI_MPI_RULE_LAYOUT);
    layout.names[0] ^= (uint32_t)wrong;
    layout.ranks += (uint32_t)wrong;
    expect_refused(go_with(count, NULL, &layout), TEZGUMI_BAD_INPUT, ranks - 1, 0);
    EXPECT(report.failed_rule == TEZGUMI_MPI_RULE_LAYOUT);
    layout.ranks -= (uint32_t)wrong;
}

static void refusals(void)
{
    begin(0);
    go_until(movers[movers_count / 2], 1);
    f.packs = f.unpacks = f.drops = 0;
    other_elements();
    other_calls();
    EXPECT(go() == TEZGUMI_OK);
    expect_gone_on();
}

/* A layout that is given back, or decided on anew, leaves elements to be decided on: scattered ones, which are few, are gathered. */
static void decided_anew(void)
{
    uint32_t k, gathered = 0;
    for (k = 1; k < 10; k++) {
        begin_heavy_first();
        go_until(movers[(movers_count - 1) * k / 9], 0);
        if (k % 2) tezgumi_mpi_layout_free(&layout);
        else EXPECT(tezgumi_mpi_decide_part(MPI_COMM_WORLD, NULL, NULL, &layout, NULL) == TEZGUMI_BAD_INPUT);
        EXPECT(layout.ranks == 0 && layout.move == 0);
        EXPECT(go() == TEZGUMI_OK && report.failed_rank == -1);
        EXPECT((layout.ranks == 0) == (report.gathered == f.n));
        gathered += layout.ranks == 0;
        expect_whole(&f);
    }
    EXPECT(gathered > 0);
}

enum { MANY = 200000, ROOM = 400000 };

/* More elements than can be gathered, with a bad one. */
static struct {
    uint32_t words[MANY];
    unsigned char here[MANY];
    uint32_t bad;
} many;

static int copy_word(void *app, uint32_t index, void *to, uint32_t bytes)
{
    (void)app;
    EXPECT(many.here[index]);
    memcpy(to, &many.words[index], bytes);
    return 0;
}

static int take_word(void *app, uint32_t index, const void *from, uint32_t bytes)
{
    (void)app;
    EXPECT(!many.here[index]);
    if (index == many.bad) return 1;
    memcpy(&many.words[index], from, bytes);
    many.here[index] = 1;
    return 0;
}

static void drop_word(void *app, uint32_t index)
{
    (void)app;
    EXPECT(many.here[index]);
    many.here[index] = 0;
}

static int go_with_many(tezgumi_mpi_layout *given)
{
    static tezgumi_mpi_element held[MANY];
    const tezgumi_mpi_callbacks callbacks = {copy_word, take_word, drop_word, NULL};
    const tezgumi_mpi_options options = {0, ROOM, 0, 0, 0};
    uint32_t i, count = 0;
    for (i = 0; i < MANY; i++) {
        if (!many.here[i]) continue;
        held[count].index = i;
        held[count].load = 1 + i % 3;
        held[count++].bytes = sizeof *many.words;
    }
    return tezgumi_mpi_rebalance(MPI_COMM_WORLD, held, count, &callbacks, &options, NULL, given, &report);
}

/* Each element is on one rank, as it was. */
static void expect_all_of_many(void)
{
    static unsigned char sums[MANY];
    uint32_t i;
    MPI_Allreduce(many.here, sums, MANY, MPI_UNSIGNED_CHAR, MPI_SUM, MPI_COMM_WORLD);
    for (i = 0; i < MANY; i++) EXPECT(sums[i] == 1 && (!many.here[i] || many.words[i] == 3 * i + 1));
}

/* All are on rank 0, and one of those that go last cannot be unpacked. The elements are scattered then, and too many to be gathered. */
static void too_many_to_gather(void)
{
    uint32_t i, first, moved;
    for (i = 0; i < MANY; i++) {
        many.here[i] = rank == 0;
        many.words[i] = rank == 0 ? 3 * i + 1 : 0;
    }
    many.bad = MANY - 1;
    EXPECT(go_with_many(&layout) == TEZGUMI_MPI_CALLBACK);
    EXPECT(report.failed_at == many.bad && report.failed_rank > 0 && report.exchanges > 0);
    moved = report.elements_moved;
    many.bad = UINT32_MAX;
    expect_all_of_many();
    EXPECT(go_with_many(&layout) == TEZGUMI_OK && report.exchanges > 0 && moved + report.elements_moved > MANY / 3);
    expect_all_of_many();
    first = layout.firsts[rank];
    for (i = 0; i < MANY; i++) EXPECT(many.here[i] == (first <= i && i < first + layout.counts[rank]));
    EXPECT(go_with_many(&layout) == TEZGUMI_OK && report.elements_moved == 0 && report.max_load_before == report.max_load_after);
}

int main(int argc, char **argv)
{
    begin_tests(&argc, &argv);
    run_test("a rebalance that goes on, from each exchange", from_each_exchange);
    run_test("a rebalance that goes on again and again", again_and_again);
    run_test("what does not fit a move under way", refusals);
    run_test("a layout that is given back", decided_anew);
    run_test("too many elements to gather, after a failure", too_many_to_gather);
    field_free(&f);
    tezgumi_mpi_layout_free(&layout);
    return end_tests();
}
