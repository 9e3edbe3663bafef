/* Moves of parts: where elements come to stand, in which exchanges, and what is left of a move that fails. Link with --wrap for
 * tezgumi_mpi_enough. */
#include "parts.h"

static field f;
static tezgumi_mpi_layout layout;
static tezgumi_mpi_report report;
static uint32_t places[FIELD_MOST];

static int decide(void)
{
    const tezgumi_mpi_part part = part_of(&f);
    const int status = tezgumi_mpi_decide_part(MPI_COMM_WORLD, &part, NULL, &layout, &report);
    if (status == TEZGUMI_OK) places_by(&layout, places);
    return status;
}

static int move(const tezgumi_mpi_options *options)
{
    const tezgumi_mpi_part part = part_of(&f);
    const tezgumi_mpi_callbacks callbacks = callbacks_of(&f);
    return tezgumi_mpi_move_part(MPI_COMM_WORLD, &part, &layout, &callbacks, options, &report);
}

static int move_within(size_t room)
{
    const tezgumi_mpi_options options = {0, room, 0, 0, 0};
    return move(&options);
}

/* Each element is where it was to go, and the layout says so. */
static void expect_moved(void)
{
    uint32_t i, r;
    expect_whole(&f);
    expect_at(&f, places);
    for (r = 0; r < layout.ranks; r++)
        for (i = layout.firsts[r]; i < layout.firsts[r] + layout.counts[r]; i++) EXPECT(places[i] == r);
}

static uint64_t sum_of_ranks(uint64_t number)
{
    uint64_t sum;
    MPI_Allreduce(&number, &sum, 1, MPI_UINT64_T, MPI_SUM, MPI_COMM_WORLD);
    return sum;
}

/* One rebalance after another, of a hot spot that wanders: what each leaves behind are parts. */
static void again_and_again(void)
{
    uint32_t turn, i;
    deal_parts(&f, 300, 1, EVEN, 0);
    for (turn = 0; turn < 8; turn++) {
        uint64_t bytes;
        uint32_t moves;
        for (i = 0; i < f.n; i++) f.load[i] = i / 40 == turn ? 90 + i % 7 : 1 + i % 3;
        EXPECT(decide() == TEZGUMI_OK);
        bytes = report.bytes_moved;
        moves = report.elements_moved;
        f.packs = f.unpacks = f.drops = 0;
        EXPECT(move(NULL) == TEZGUMI_OK);
        EXPECT(report.bytes_moved == bytes && report.elements_moved == moves && report.exchanges == (moves > 0));
        EXPECT(f.packs == f.drops && sum_of_ranks(f.packs) == moves && sum_of_ranks(f.unpacks) == moves);
        expect_moved();
        memcpy(f.dealt, places, sizeof places);
    }
}

/* In one call: as ranks do that know all elements. */
static void in_one_call(void)
{
    static tezgumi_mpi_element mine[FIELD_MOST];
    tezgumi_mpi_chain chain = {0};
    uint32_t seed;
    for (seed = 1; seed <= 4; seed++) {
        deal_parts(&f, 60 * seed, seed, SKEW, 1);
        EXPECT(tezgumi_mpi_gather(MPI_COMM_WORLD, mine, elements_of(&f, mine), &chain, NULL) == TEZGUMI_OK);
        EXPECT(tezgumi_mpi_decide(MPI_COMM_WORLD, &chain, NULL, NULL) == TEZGUMI_OK);
        EXPECT(rebalance(&f, NULL, NULL, &report) == TEZGUMI_OK);
        expect_whole(&f);
        expect_at(&f, chain.new_places);
    }
    tezgumi_mpi_chain_free(&chain);
}

/* So many elements of so many bytes on each rank, each of which is to go to the next rank, as another partitioner may say. */
static void begin_ring(uint32_t each, uint32_t bytes)
{
    uint32_t i, b;
    deal(&f, each * (uint32_t)ranks, 1, IN_ORDER);
    for (i = 0; i < f.n; i++) f.size[i] = bytes;
    deal_again(&f);
    EXPECT(decide() == TEZGUMI_OK);
    for (b = 0; b < layout.ranks; b++) {
        layout.cuts[b + 1] = each * (b + 1);
        layout.names[b] = (b + 1) % layout.ranks;
    }
    places_by(&layout, places);
}

/* How many exchanges there are, which all ranks use at the same time. */
static void room(void)
{
    static const struct { size_t room; uint32_t exchanges; } rows[] = {
        {0, 1}, {1, 8}, {63, 8}, {64, 8}, {127, 8}, {128, 4}, {129, 4}, {192, 3}, {256, 2}, {511, 2}, {512, 1}, {SIZE_MAX, 1}};
    uint32_t k;
    for (k = 0; k < sizeof rows / sizeof *rows; k++) {
        begin_ring(8, 60);
        EXPECT(move_within(rows[k].room) == TEZGUMI_OK);
        EXPECT(report.exchanges == rows[k].exchanges);
        EXPECT(report.elements_moved == f.n && report.bytes_moved == 60 * (uint64_t)f.n);
        expect_moved();
    }
}

/* Elements of no bytes take no room. */
static void nothing_to_pack(void)
{
    begin_ring(8, 0);
    EXPECT(move_within(16) == TEZGUMI_OK);
    EXPECT(report.exchanges == 1 && report.elements_moved == f.n && report.bytes_moved == 0);
    expect_moved();
}

/* Each rank but the first has 6 elements of 64 bytes for it. */
static void begin_funnel(void)
{
    uint32_t b;
    begin_ring(6, 64);
    for (b = 0; b < layout.ranks; b++) {
        layout.cuts[b + 1] = f.n;
        layout.names[b] = b;
    }
    places_by(&layout, places);
}

/* What has gone from one rank has not come to another, or the other way round. */
static void gone_and_come(void)
{
    static const struct { uint32_t sent, received; } rows[] = {{1, 0}, {0, 1}, {6, 0}, {0, 6}, {1, 1}};
    const uint32_t last = (uint32_t)ranks - 1;
    uint32_t k;
    begin_funnel();
    for (k = 0; k < sizeof rows / sizeof *rows - (ranks < 3); k++) { /* the last: from the last rank, and from the second */
        if (rank == ranks - 1) layout.sent[0] = rows[k].sent;
        if (rank == 0) layout.received[rows[k].sent ? 1 : last] = rows[k].received;
        EXPECT(move(NULL) == TEZGUMI_MPI_DISAGREE && report.failed_rank == 0);
        EXPECT(f.packs == 0 && f.unpacks == 0 && f.drops == 0);
        if (rank == ranks - 1) layout.sent[0] = 0;
        if (rank == 0) layout.received[1] = layout.received[last] = 0;
    }
    EXPECT(move(NULL) == TEZGUMI_OK);
    expect_moved();
}

/* The first rank takes 2 in an exchange. */
static void room_to_receive(void)
{
    begin_funnel();
    EXPECT(move_within(128) == TEZGUMI_OK);
    EXPECT(report.exchanges == 3 * (uint32_t)(ranks - 1));
    expect_moved();
}

/* In each exchange four elements leave each rank and four come. The sixth that leaves rank `from` fails, and once that is put right the
 * move goes on. */
static void fail_in_second(int from, int while_packing)
{
    const uint32_t bad = 12 * (uint32_t)from + 5;
    uint32_t r;
    begin_ring(12, 64);
    if (while_packing) f.fail_pack = bad;
    else f.fail_unpack = bad;
    EXPECT(move_within(4 * 64) == TEZGUMI_MPI_CALLBACK);
    EXPECT(report.failed_at == bad && report.failed_rank == (while_packing ? from : (from + 1) % ranks));
    EXPECT(report.exchanges == 1 && report.elements_moved == 4 * (uint32_t)ranks && report.bytes_moved == 4 * 64 * (uint64_t)ranks);
    expect_whole(&f);
    for (r = 0; r < layout.ranks; r++) EXPECT(layout.firsts[r] == 12 * r && layout.counts[r] == 12);
    f.fail_pack = f.fail_unpack = UINT32_MAX;
    layout.cuts[1]++; /* other elements would follow those that have gone */
    EXPECT(move_within(4 * 64) == TEZGUMI_BAD_INPUT && report.exchanges == 0);
    EXPECT(report.failed_rule == TEZGUMI_MPI_RULE_LAYOUT);
    layout.cuts[1]--;
    EXPECT(move_within(4 * 64) == TEZGUMI_OK);
    EXPECT(report.elements_moved == 8 * (uint32_t)ranks && report.exchanges == 2);
    expect_moved();
}

static void callbacks_that_fail(void)
{
    int from;
    for (from = 0; from < ranks; from++) {
        fail_in_second(from, 1);
        fail_in_second(from, 0);
    }
}

static void expect_refused(int status, int rule)
{
    EXPECT(status == TEZGUMI_BAD_INPUT && report.failed_rank == ranks - 1 && report.failed_rule == rule);
    EXPECT(f.packs == 0 && f.unpacks == 0 && f.drops == 0);
}

/* The last rank does something wrong. */
static void refusals(void)
{
    const int wrong = rank == ranks - 1;
    const tezgumi_mpi_callbacks callbacks = callbacks_of(&f);
    tezgumi_mpi_layout fresh = {0};
    tezgumi_mpi_part part;
    begin_ring(3, 5);
    part = part_of(&f);
    if (wrong) layout.names[0] ^= 1;
    expect_refused(move(NULL), TEZGUMI_MPI_RULE_CUTS);
    if (wrong) layout.names[0] ^= 1;
    if (wrong) layout.cuts[1] = f.n + 1;
    expect_refused(move(NULL), TEZGUMI_MPI_RULE_CUTS);
    if (wrong) layout.cuts[1] = 3;
    if (wrong) part.first++;
    expect_refused(tezgumi_mpi_move_part(MPI_COMM_WORLD, &part, &layout, &callbacks, NULL, &report), TEZGUMI_MPI_RULE_PART);
    part = part_of(&f);
    if (wrong) part.count--;
    expect_refused(tezgumi_mpi_move_part(MPI_COMM_WORLD, &part, &layout, &callbacks, NULL, &report), TEZGUMI_MPI_RULE_PART);
    part = part_of(&f);
    expect_refused(tezgumi_mpi_move_part(MPI_COMM_WORLD, wrong ? NULL : &part, &layout, &callbacks, NULL, &report), TEZGUMI_MPI_RULE_NULL);
    expect_refused(tezgumi_mpi_move_part(MPI_COMM_WORLD, &part, wrong ? &fresh : &layout, &callbacks, NULL, &report), TEZGUMI_MPI_RULE_LAYOUT);
    expect_refused(tezgumi_mpi_move_part(MPI_COMM_WORLD, &part, &layout, wrong ? NULL : &callbacks, NULL, &report), TEZGUMI_MPI_RULE_CALLBACKS);
    EXPECT(move_within(wrong ? 32 : 16) == (ranks > 1 ? TEZGUMI_MPI_DISAGREE : TEZGUMI_OK));
    EXPECT(move(NULL) == TEZGUMI_OK);
    if (ranks > 1) expect_moved();
}

/* An intercommunicator: neither call touches the layout. */
static void two_groups(void)
{
    const tezgumi_mpi_callbacks callbacks = callbacks_of(&f);
    tezgumi_mpi_part part;
    MPI_Comm half, both;
    begin_ring(3, 5);
    part = part_of(&f);
    MPI_Comm_split(MPI_COMM_WORLD, rank % 2, rank, &half);
    MPI_Intercomm_create(half, 0, MPI_COMM_WORLD, 1 - rank % 2, 0, &both);
    EXPECT(tezgumi_mpi_decide_part(both, &part, NULL, &layout, NULL) == TEZGUMI_BAD_INPUT);
    EXPECT(tezgumi_mpi_move_part(both, &part, &layout, &callbacks, NULL, NULL) == TEZGUMI_BAD_INPUT);
    EXPECT(layout.n == f.n && layout.ranks == (uint32_t)ranks);
    MPI_Comm_free(&both);
    MPI_Comm_free(&half);
    EXPECT(move(NULL) == TEZGUMI_OK);
    expect_moved();
}

static int copy_word(void *app, uint32_t index, void *to, uint32_t bytes)
{
    memcpy(to, (uint32_t *)app + index, bytes);
    return 0;
}

static int take_word(void *app, uint32_t index, const void *from, uint32_t bytes)
{
    memcpy((uint32_t *)app + index, from, bytes);
    return 0;
}

enum { MANY = 200000 };

/* More elements than can be gathered: ranges are not, whoever has them, and scattered ones and overlaps are refused. */
static void many(void)
{
    static tezgumi_mpi_element mine[MANY];
    static uint32_t words[MANY];
    const tezgumi_mpi_callbacks callbacks = {copy_word, take_word, NULL, words};
    const uint32_t begin = (uint32_t)((uint64_t)MANY * (uint32_t)(ranks - 1 - rank) / (uint32_t)ranks);
    const uint32_t end = (uint32_t)((uint64_t)MANY * (uint32_t)(ranks - rank) / (uint32_t)ranks), count = end - begin;
    uint64_t total = 0, most;
    uint32_t i;
    for (i = 0; i < MANY; i++) total += i < MANY / 10 ? 500 : 50;
    for (i = begin; i < end; i++) {
        words[i] = 3 * i + 1;
        mine[i - begin].index = i;
        mine[i - begin].load = i < MANY / 10 ? 500 : 50;
        mine[i - begin].bytes = sizeof *words;
    }
    if (ranks > 1 && rank == 0) mine[count - 1].index = 0;
    EXPECT(tezgumi_mpi_rebalance(MPI_COMM_WORLD, mine, count, &callbacks, NULL, NULL, NULL, &report)
        == (ranks > 1 ? TEZGUMI_MPI_SCATTERED : TEZGUMI_OK));
    EXPECT(report.failed_rank == (ranks > 1 ? 0 : -1));
    for (i = 0; i < count; i++) mine[i].index = begin + i - (rank == 0 && ranks > 1);
    if (ranks > 1)
        EXPECT(tezgumi_mpi_rebalance(MPI_COMM_WORLD, mine, count, &callbacks, NULL, NULL, NULL, &report) == TEZGUMI_MPI_BAD_INDEX);
    for (i = 0; i < count; i++) mine[i].index = begin + i;
    EXPECT(tezgumi_mpi_rebalance(MPI_COMM_WORLD, mine, count, &callbacks, NULL, NULL, NULL, &report) == TEZGUMI_OK);
    most = (total + (uint64_t)ranks - 1) / (uint64_t)ranks;
    EXPECT(report.max_load_after >= most && report.max_load_after < most + 500);
    EXPECT(report.gathered < MANY / 4 && (ranks == 1 || report.elements_moved > MANY / 8));
}

int main(int argc, char **argv)
{
    begin_tests(&argc, &argv);
    run_test("one move after another", again_and_again);
    run_test("decided and moved in one call", in_one_call);
    run_test("bad layouts and parts", refusals);
    run_test("many elements", many);
    if (ranks > 1) {
        run_test("room for an exchange of parts", room);
        run_test("elements of no bytes", nothing_to_pack);
        run_test("two groups of ranks", two_groups);
        run_test("room for what a part receives", room_to_receive);
        run_test("what has gone and has not come", gone_and_come);
        run_test("callbacks that fail, and a move that goes on", callbacks_that_fail);
    }
    field_free(&f);
    tezgumi_mpi_layout_free(&layout);
    return end_tests();
}
