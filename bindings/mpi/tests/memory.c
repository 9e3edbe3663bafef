/* Each request for memory is refused in turn, on each rank in turn, those of the planner included: all ranks answer that
 * memory is out, nothing has moved, and all memory is given back. Link with --wrap for malloc, calloc, realloc and free, and
 * with the static planner, and for tezgumi_mpi_enough. */
#include "parts.h"

static field f;
static int as_parts;       /* 1 while elements are dealt out as parts, and no chain is asked for */
static int counting;       /* 1 while requests are those of the libraries */
static unsigned requests;  /* of this rank since the last call */
static unsigned refuse_at; /* the request to refuse, or 0 */
static int live;           /* requests that were granted, and not given back */
static uint32_t fail_pack = UINT32_MAX, fail_unpack = UINT32_MAX;

void *__real_malloc(size_t bytes);
void *__real_calloc(size_t count, size_t bytes);
void *__real_realloc(void *old, size_t bytes);
void __real_free(void *old);
void *__wrap_malloc(size_t bytes);
void *__wrap_calloc(size_t count, size_t bytes);
void *__wrap_realloc(void *old, size_t bytes);
void __wrap_free(void *old);

static int is_refused(void)
{
    if (counting && ++requests == refuse_at) return 1;
    live += counting;
    return 0;
}

void *__wrap_malloc(size_t bytes)
{
    return is_refused() ? NULL : __real_malloc(bytes);
}

void *__wrap_calloc(size_t count, size_t bytes)
{
    return is_refused() ? NULL : __real_calloc(count, bytes);
}

void *__wrap_realloc(void *old, size_t bytes)
{
    void *room = is_refused() ? NULL : __real_realloc(old, bytes);
    if (room && old) live -= counting;
    return room;
}

void __wrap_free(void *old)
{
    if (old) live -= counting;
    __real_free(old);
}

/* The callbacks' own requests are granted and not counted. */
static int unpack_uncounted(void *app, uint32_t index, const void *from, uint32_t bytes)
{
    int status;
    counting = 0;
    status = field_unpack(app, index, from, bytes);
    counting = 1;
    return status;
}

static void drop_uncounted(void *app, uint32_t index)
{
    counting = 0;
    field_drop(app, index);
    counting = 1;
}

static int rebalance_counted(int skip_check, int refine, tezgumi_mpi_report *report)
{
    static tezgumi_mpi_element mine[FIELD_MOST];
    const tezgumi_mpi_options options = {0, 1000, skip_check, refine, as_parts && refine};
    const tezgumi_mpi_callbacks callbacks = {field_pack, unpack_uncounted, drop_uncounted, &f};
    tezgumi_mpi_chain chain = {0};
    uint32_t count;
    int status;
    if (as_parts && !refine) deal_parts(&f, 60, 3, EVEN, 1);
    else deal(&f, 60, 3, refine ? IN_ORDER : SCATTERED);
    f.fail_pack = fail_pack;
    f.fail_unpack = fail_unpack;
    count = elements_of(&f, mine);
    requests = 0;
    live = 0;
    counting = 1;
    status = tezgumi_mpi_rebalance(MPI_COMM_WORLD, mine, count, &callbacks, &options, as_parts ? NULL : &chain, NULL, report);
    tezgumi_mpi_chain_free(&chain);
    counting = 0;
    EXPECT(live == 0);
    return status;
}

/* Refuses the first request on a rank, then the second, until none is left. How many there are. */
static unsigned refuse_each(int on, int skip_check, int refine)
{
    tezgumi_mpi_report report;
    unsigned k;
    int status = TEZGUMI_NO_MEMORY;
    for (k = 1; status == TEZGUMI_NO_MEMORY && k < 1000; k++) {
        refuse_at = rank == on ? k : 0;
        status = rebalance_counted(skip_check, refine, &report);
        if (status != TEZGUMI_NO_MEMORY) break;
        EXPECT(report.failed_rank == on);
        EXPECT(f.packs == 0 && f.unpacks == 0 && f.drops == 0);
        expect_whole(&f);
        expect_at(&f, f.dealt);
    }
    refuse_at = 0;
    EXPECT(status == TEZGUMI_OK);
    expect_whole(&f);
    return k - 1;
}

static void on_each_rank(int skip_check, int refine)
{
    int on;
    for (on = 0; on < ranks; on++) {
        const unsigned refused = refuse_each(on, skip_check, refine);
        if (rank == on) EXPECT(refused == requests);
        EXPECT(refused >= (as_parts ? 3u : ranks == 1 ? 4u : 7u));
    }
}

/* Each element fails in turn, while it is packed or unpacked, if it moves at all. */
static void after_callbacks(void)
{
    tezgumi_mpi_report report;
    uint32_t i, failed = 0;
    for (i = 0; i < 60; i++) {
        fail_pack = i % 2 ? i : UINT32_MAX;
        fail_unpack = i % 2 ? UINT32_MAX : i;
        failed += rebalance_counted(0, 0, &report) == TEZGUMI_MPI_CALLBACK;
        expect_whole(&f);
    }
    fail_pack = fail_unpack = UINT32_MAX;
    EXPECT(failed > 0);
}

/* Rebalances parts that are held now, by this layout. */
static int go(tezgumi_mpi_layout *layout, tezgumi_mpi_report *report)
{
    static tezgumi_mpi_element mine[FIELD_MOST];
    const tezgumi_mpi_options options = {0, 1000, 0, 0, 0};
    const tezgumi_mpi_callbacks callbacks = {field_pack, unpack_uncounted, drop_uncounted, &f};
    const uint32_t count = elements_of(&f, mine);
    int status;
    requests = 0;
    counting = 1;
    status = tezgumi_mpi_rebalance(MPI_COMM_WORLD, mine, count, &callbacks, &options, NULL, layout, report);
    counting = 0;
    return status;
}

/* The call that goes on where the last element could not be unpacked is refused its requests one after another, on this rank. */
static unsigned refuse_each_of_the_rest(int on)
{
    uint32_t places[60];
    tezgumi_mpi_layout layout = {0};
    tezgumi_mpi_report report;
    tezgumi_mpi_part part;
    unsigned k;
    int status = TEZGUMI_NO_MEMORY;
    deal_parts(&f, 60, 3, EVEN, 0);
    part = part_of(&f);
    EXPECT(tezgumi_mpi_decide_part(MPI_COMM_WORLD, &part, NULL, &layout, NULL) == TEZGUMI_OK);
    places_by(&layout, places);
    tezgumi_mpi_layout_free(&layout);
    live = 0;
    f.fail_unpack = 59;
    while (places[f.fail_unpack] == f.dealt[f.fail_unpack]) f.fail_unpack--;
    EXPECT(go(&layout, &report) == TEZGUMI_MPI_CALLBACK && layout.move != 0 && report.exchanges > 0);
    f.fail_unpack = UINT32_MAX;
    for (k = 1; status == TEZGUMI_NO_MEMORY && k < 1000; k++) {
        refuse_at = rank == on ? k : 0;
        status = go(&layout, &report);
        expect_whole(&f);
        EXPECT(status == TEZGUMI_OK || (report.failed_rank == on && layout.move != 0));
    }
    refuse_at = 0;
    EXPECT(status == TEZGUMI_OK && report.elements_moved > 0 && layout.move == 0);
    EXPECT(live == 1);
    tezgumi_mpi_layout_free(&layout);
    return k - 2;
}

static void of_the_rest(void)
{
    int on;
    for (on = 0; on < ranks; on++) EXPECT(refuse_each_of_the_rest(on) == 3); /* its elements, the lists and the buffers */
}

static void checked(void) { on_each_rank(0, 0); }
static void unchecked(void) { on_each_rank(1, 0); }
static void refined(void) { on_each_rank(0, 1); }

static void of_parts(void)
{
    as_parts = 1;
    on_each_rank(0, 0);
    enough = 0; /* with walks */
    on_each_rank(1, 0);
    enough = UINT64_MAX;
    as_parts = 0;
}

static void of_kept_parts(void)
{
    as_parts = 1;
    on_each_rank(0, 1);
    as_parts = 0;
}

static void after_callbacks_of_parts(void)
{
    as_parts = 1;
    after_callbacks();
    as_parts = 0;
}

int main(int argc, char **argv)
{
    begin_tests(&argc, &argv);
    run_test("memory refused on one rank", checked);
    run_test("memory refused on one rank, without the checker", unchecked);
    run_test("memory refused on one rank, within a tolerance", refined);
    run_test("memory refused on one rank, of parts", of_parts);
    run_test("memory refused on one rank, of parts that keep the order", of_kept_parts);
    if (ranks > 1) run_test("memory is given back after a callback that failed", after_callbacks);
    if (ranks > 1) run_test("memory of parts is given back after a callback that failed", after_callbacks_of_parts);
    if (ranks > 1) run_test("memory refused on one rank, of a move that goes on", of_the_rest);
    field_free(&f);
    return end_tests();
}
