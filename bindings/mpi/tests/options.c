/* What each option does, by examples that are worked out by hand. */
#include <math.h>
#include "harness.h"

static field f;
static tezgumi_mpi_report report;

/* 10 elements of load 1 a rank, and 2 of those of rank 1 on rank 0: the greatest load is 12, and the least is 10. */
static void deal_twelve(void)
{
    uint32_t i;
    deal(&f, 10 * (uint32_t)ranks, 1, IN_ORDER);
    for (i = 0; i < f.n; i++) {
        f.load[i] = 1;
        f.size[i] = 10;
    }
    f.dealt[10] = f.dealt[11] = 0;
    deal_again(&f);
}

static int rebalance_within(double tolerance)
{
    const tezgumi_mpi_options options = {tolerance, 0, 0, 0, 0};
    deal_twelve();
    return rebalance(&f, &options, NULL, &report);
}

static void expect_stays(double tolerance)
{
    EXPECT(rebalance_within(tolerance) == TEZGUMI_OK);
    EXPECT(report.max_load_before == 12 && report.max_load_after == 12 && report.average_load == 10);
    EXPECT(report.elements_moved == 0 && report.bytes_moved == 0 && report.exchanges == 0);
    expect_at(&f, f.dealt);
}

static void expect_moves(double tolerance)
{
    EXPECT(rebalance_within(tolerance) == TEZGUMI_OK);
    EXPECT(report.max_load_before == 12 && report.max_load_after == 10 && report.average_load == 10);
    EXPECT(report.elements_moved == 2 && report.bytes_moved == 20 && report.exchanges == 1);
    expect_whole(&f);
}

static void tolerance(void)
{
    expect_stays(0.2);
    expect_stays(5);
    expect_stays(HUGE_VAL);
    expect_moves(0.19);
    expect_moves(0);
}

/* Ranges are made, whatever the tolerance. */
static void tolerance_of_scattered(void)
{
    const tezgumi_mpi_options options = {1e9, 0, 0, 0, 0};
    tezgumi_mpi_chain chain = {0};
    uint32_t first, end;
    deal(&f, 100, 2, SCATTERED);
    EXPECT(rebalance(&f, &options, &chain, &report) == TEZGUMI_OK);
    EXPECT(report.elements_moved > 0);
    EXPECT(tezgumi_mpi_range(&chain, rank, &first, &end));
    expect_whole(&f);
    tezgumi_mpi_chain_free(&chain);
}

static void bad_tolerance(void)
{
    EXPECT(rebalance_within(rank == 0 ? -0.01 : 0) == TEZGUMI_BAD_INPUT && report.failed_rank == 0);
    EXPECT(rebalance_within(rank == ranks - 1 ? (double)NAN : 0) == TEZGUMI_BAD_INPUT);
    EXPECT(report.failed_rank == ranks - 1);
    expect_at(&f, f.dealt);
}

/* One rank would let all be, and the others would not. */
static void unlike_tolerances(void)
{
    EXPECT(rebalance_within(rank == 0 ? 1 : 0) == TEZGUMI_MPI_DISAGREE);
    EXPECT(report.failed_rank == -1);
    expect_at(&f, f.dealt);
}

/* On each rank are 8 elements of 60 bytes, which take 64, for the next rank. */
static int move_ring(size_t room)
{
    static tezgumi_mpi_element mine[FIELD_MOST];
    const tezgumi_mpi_options options = {0, room, 0, 0, 0};
    const tezgumi_mpi_callbacks callbacks = callbacks_of(&f);
    tezgumi_mpi_chain chain = {0};
    uint32_t i;
    int status;
    deal(&f, 8 * (uint32_t)ranks, 1, IN_ORDER);
    for (i = 0; i < f.n; i++) f.size[i] = 60;
    deal_again(&f);
    EXPECT(tezgumi_mpi_gather(MPI_COMM_WORLD, mine, elements_of(&f, mine), &chain, &report) == TEZGUMI_OK);
    for (i = 0; i < f.n; i++) chain.new_places[i] = (f.dealt[i] + 1) % (uint32_t)ranks;
    status = tezgumi_mpi_move(MPI_COMM_WORLD, &chain, &callbacks, &options, &report);
    expect_whole(&f);
    expect_at(&f, chain.places);
    tezgumi_mpi_chain_free(&chain);
    return status;
}

/* How many exchanges there are, which all ranks use at the same time. */
static void room(void)
{
    static const struct { size_t room; uint32_t exchanges; } rows[] = {
        {0, 1}, {1, 8}, {63, 8}, {64, 8}, {127, 8}, {128, 4}, {129, 4}, {192, 3}, {256, 2}, {511, 2}, {512, 1},
        {SIZE_MAX, 1}};
    uint32_t k;
    for (k = 0; k < sizeof rows / sizeof *rows; k++) {
        EXPECT(move_ring(rows[k].room) == TEZGUMI_OK);
        EXPECT(report.exchanges == rows[k].exchanges);
        EXPECT(report.elements_moved == f.n && report.bytes_moved == 60 * (uint64_t)f.n);
    }
}

/* Each rank but the first has 6 elements of 64 bytes for it, which takes 2 in an exchange. */
static void room_to_receive(void)
{
    static tezgumi_mpi_element mine[FIELD_MOST];
    const tezgumi_mpi_options options = {0, 128, 0, 0, 0};
    const tezgumi_mpi_callbacks callbacks = callbacks_of(&f);
    tezgumi_mpi_chain chain = {0};
    uint32_t i;
    deal(&f, 6 * (uint32_t)ranks, 1, IN_ORDER);
    for (i = 0; i < f.n; i++) f.size[i] = 64;
    deal_again(&f);
    EXPECT(tezgumi_mpi_gather(MPI_COMM_WORLD, mine, elements_of(&f, mine), &chain, &report) == TEZGUMI_OK);
    for (i = 0; i < f.n; i++) chain.new_places[i] = 0;
    EXPECT(tezgumi_mpi_move(MPI_COMM_WORLD, &chain, &callbacks, &options, &report) == TEZGUMI_OK);
    EXPECT(report.exchanges == 3 * (uint32_t)(ranks - 1));
    expect_whole(&f);
    expect_at(&f, chain.places);
    tezgumi_mpi_chain_free(&chain);
}

static void unlike_rooms(void)
{
    EXPECT(move_ring(rank == 0 ? 64 : 128) == TEZGUMI_MPI_DISAGREE);
    EXPECT(report.failed_rank == -1 && report.exchanges == 0);
    expect_at(&f, f.dealt);
}

/* The most bytes that lie packed on this rank at once are those that the room allows. */
static uint32_t packed, most_packed;

static int pack_and_count(void *app, uint32_t index, void *to, uint32_t bytes)
{
    packed += bytes;
    if (packed > most_packed) most_packed = packed;
    return field_pack(app, index, to, bytes);
}

static void drop_and_count(void *app, uint32_t index)
{
    packed -= f.size[index];
    field_drop(app, index);
}

static void room_is_kept(void)
{
    static tezgumi_mpi_element mine[FIELD_MOST];
    const tezgumi_mpi_options options = {0, 2000, 0, 0, 0};
    const tezgumi_mpi_callbacks callbacks = {pack_and_count, field_unpack, drop_and_count, &f};
    uint32_t most;
    deal(&f, 1000, 7, SCATTERED);
    packed = most_packed = 0;
    EXPECT(tezgumi_mpi_rebalance(MPI_COMM_WORLD, mine, elements_of(&f, mine), &callbacks, &options, NULL, NULL, &report)
        == TEZGUMI_OK);
    MPI_Allreduce(&most_packed, &most, 1, MPI_UINT32_T, MPI_MAX, MPI_COMM_WORLD);
    EXPECT(most <= 2000 && most > 1000 && report.exchanges > 10);
    expect_whole(&f);
}

static void without_check(void)
{
    const tezgumi_mpi_options options = {0, 0, 1, 0, 0};
    tezgumi_mpi_chain checked = {0}, unchecked = {0};
    deal(&f, 300, 5, SCATTERED);
    EXPECT(rebalance(&f, NULL, &checked, &report) == TEZGUMI_OK && report.check_seconds > 0);
    deal(&f, 300, 5, SCATTERED);
    EXPECT(rebalance(&f, &options, &unchecked, &report) == TEZGUMI_OK && report.check_seconds == 0);
    EXPECT(memcmp(checked.places, unchecked.places, 300 * sizeof *checked.places) == 0);
    expect_whole(&f);
    tezgumi_mpi_chain_free(&checked);
    tezgumi_mpi_chain_free(&unchecked);
}

/* Without options, chain and report. */
static void nothing_but_callbacks(void)
{
    deal(&f, 300, 5, SCATTERED);
    EXPECT(rebalance(&f, NULL, NULL, NULL) == TEZGUMI_OK);
    expect_whole(&f);
}

/* Loads whose sum is past what a float or a double holds exactly: nothing moves where nothing is gained. */
static void great_loads(void)
{
    uint32_t i;
    deal(&f, 1000, 1, IN_ORDER);
    for (i = 0; i < f.n; i++) f.load[i] = TEZGUMI_MPI_GATHERED_LOAD - i % 2;
    EXPECT(rebalance(&f, NULL, NULL, &report) == TEZGUMI_OK);
    EXPECT(rebalance(&f, NULL, NULL, &report) == TEZGUMI_OK);
    EXPECT(report.elements_moved == 0 && report.max_load_before == report.max_load_after);
    expect_whole(&f);
}

int main(int argc, char **argv)
{
    begin_tests(&argc, &argv);
    run_test("a bad tolerance", bad_tolerance);
    run_test("without the checker", without_check);
    run_test("without options, chain and report", nothing_but_callbacks);
    run_test("great loads", great_loads);
    if (ranks > 1) {
        run_test("a tolerance", tolerance);
        run_test("a tolerance of scattered elements", tolerance_of_scattered);
        run_test("tolerances that differ", unlike_tolerances);
        run_test("room for an exchange", room);
        run_test("room for what a rank receives", room_to_receive);
        run_test("rooms that differ", unlike_rooms);
        run_test("no more is packed than there is room for", room_is_kept);
    }
    field_free(&f);
    return end_tests();
}
