/* What one rank imports and exports, beside a slow count over all elements, of layouts of up to 12 ranks. Link with --wrap for malloc,
 * calloc, realloc and free. */
#include "harness.h"
#include "internal.h"

enum { MOST = 300, MOST_RANKS = 12 };

static tezgumi_mpi_layout layout;
static tezgumi_mpi_lists lists;
static uint32_t old_places[MOST], new_places[MOST];

static int counting;       /* 1 while requests are those of the library */
static unsigned requests;  /* in the last call */
static unsigned refuse_at; /* the request to refuse, or 0 */
static int live;           /* requests that were granted, and not given back */

void *__real_malloc(size_t bytes);
void *__real_calloc(size_t count, size_t bytes);
void *__real_realloc(void *old, size_t bytes);
void __real_free(void *old);
void *__wrap_malloc(size_t bytes);
void *__wrap_calloc(size_t count, size_t bytes);
void *__wrap_realloc(void *old, size_t bytes);
void __wrap_free(void *old);

static int is_refused(void)
{
    if (counting && ++requests == refuse_at) return 1;
    live += counting;
    return 0;
}

void *__wrap_malloc(size_t bytes)
{
    return is_refused() ? NULL : __real_malloc(bytes);
}

void *__wrap_calloc(size_t count, size_t bytes)
{
    return is_refused() ? NULL : __real_calloc(count, bytes);
}

void *__wrap_realloc(void *old, size_t bytes)
{
    void *room = is_refused() ? NULL : __real_realloc(old, bytes);
    if (room && old) live -= counting;
    return room;
}

void __wrap_free(void *old)
{
    if (old) live -= counting;
    __real_free(old);
}

static int lists_of(const tezgumi_mpi_layout *l, int of, tezgumi_mpi_lists *to)
{
    int status;
    requests = 0;
    counting = 1;
    status = tezgumi_mpi_lists_of(l, of, to);
    counting = 0;
    return status;
}

static void free_lists(void)
{
    counting = 1;
    tezgumi_mpi_lists_free(&lists);
    counting = 0;
}

/* Cuts that rise, from 0 to n. */
static void cut(uint32_t n, uint32_t ends, uint32_t *seed, uint32_t *cuts)
{
    uint32_t b;
    cuts[0] = 0;
    for (b = 0; b < ends; b++) {
        const uint32_t left = n - cuts[b];
        cuts[b + 1] = b + 1 == ends ? n : cuts[b] + next_random(seed, 2 * left / (ends - b) + 1);
    }
}

static void shuffle(uint32_t count, uint32_t *seed, uint32_t *order)
{
    uint32_t i;
    for (i = 0; i < count; i++) order[i] = i;
    for (i = count; i > 1; i--) {
        const uint32_t k = next_random(seed, i), other = order[k];
        order[k] = order[i - 1];
        order[i - 1] = other;
    }
}

/* A layout at random. */
static void lay(uint32_t n, uint32_t of_ranks, uint32_t seed)
{
    uint32_t cuts[MOST_RANKS + 1], order[MOST_RANKS], b, i;
    EXPECT(tezgumi_mpi_layout_room(&layout, of_ranks) == TEZGUMI_OK);
    layout.n = n;
    cut(n, of_ranks, &seed, cuts);
    shuffle(of_ranks, &seed, order);
    for (b = 0; b < of_ranks; b++) {
        layout.firsts[order[b]] = cuts[b];
        layout.counts[order[b]] = cuts[b + 1] - cuts[b];
        for (i = cuts[b]; i < cuts[b + 1]; i++) old_places[i] = order[b];
    }
    cut(n, of_ranks, &seed, layout.cuts);
    shuffle(of_ranks, &seed, layout.names);
    for (b = 0; b < of_ranks; b++)
        for (i = layout.cuts[b]; i < layout.cuts[b + 1]; i++) new_places[i] = layout.names[b];
}

/* The lists of a rank are what going through all elements finds. */
static void expect_lists(uint32_t of)
{
    uint32_t imports = 0, exports = 0, i;
    for (i = 0; i < layout.n; i++) {
        if (old_places[i] == new_places[i]) continue;
        if (new_places[i] == of) {
            EXPECT(imports < lists.imports && lists.import_indices[imports] == i && lists.import_ranks[imports] == old_places[i]);
            imports++;
        }
        if (old_places[i] == of) {
            EXPECT(exports < lists.exports && lists.export_indices[exports] == i && lists.export_ranks[exports] == new_places[i]);
            exports++;
        }
    }
    EXPECT(lists.imports == imports && lists.exports == exports);
}

static void at_random(void)
{
    uint32_t seed, of;
    for (seed = 1; seed <= 60; seed++) {
        lay(seed % 9 == 0 ? 0 : seed * 37 % MOST, 1 + seed % MOST_RANKS, seed);
        for (of = 0; of < layout.ranks; of++) {
            EXPECT(lists_of(&layout, (int)of, &lists) == TEZGUMI_OK);
            expect_lists(of);
        }
    }
    free_lists();
    EXPECT(live == 0 && !lists.room && !lists.import_indices && lists.imports == 0 && lists.exports == 0);
    tezgumi_mpi_lists_free(&lists);
    tezgumi_mpi_lists_free(NULL);
}

/* Of a move under way: what has gone from here, and what has come, is not listed. By hand: rank 0 holds 0 .. 5 and rank 1 6 .. 9; all
 * but the first three are to change places, of which two have gone each way. */
static void under_way(void)
{
    EXPECT(tezgumi_mpi_layout_room(&layout, 3) == TEZGUMI_OK);
    layout.n = 10;
    layout.firsts[0] = layout.cuts[0] = 0;
    layout.firsts[1] = layout.counts[0] = 6;
    layout.counts[1] = 4;
    layout.firsts[2] = layout.counts[2] = 0;
    layout.cuts[1] = 3;
    layout.cuts[2] = 6;
    layout.cuts[3] = 10;
    layout.names[0] = 2;
    layout.names[1] = 1;
    layout.names[2] = 0;
    layout.sent[1] = 2;
    layout.received[1] = 1;
    EXPECT(lists_of(&layout, 0, &lists) == TEZGUMI_OK);
    EXPECT(lists.imports == 3 && lists.import_indices[0] == 7 && lists.import_indices[2] == 9 && lists.import_ranks[1] == 1);
    EXPECT(lists.exports == 4 && lists.export_indices[0] == 0 && lists.export_ranks[2] == 2 && lists.export_indices[3] == 5);
    EXPECT(lists.export_ranks[3] == 1);
    free_lists();
}

static void expect_refused(const tezgumi_mpi_layout *l, int of)
{
    const tezgumi_mpi_lists before = lists;
    EXPECT(lists_of(l, of, &lists) == TEZGUMI_BAD_INPUT);
    EXPECT(memcmp(&before, &lists, sizeof lists) == 0);
}

static void refusals(void)
{
    tezgumi_mpi_layout fresh = {0};
    uint32_t r;
    lay(100, 4, 5);
    EXPECT(lists_of(&layout, 1, &lists) == TEZGUMI_OK);
    expect_refused(NULL, 0);
    expect_refused(&fresh, 0);
    expect_refused(&layout, -1);
    expect_refused(&layout, 4);
    EXPECT(tezgumi_mpi_lists_of(&layout, 0, NULL) == TEZGUMI_BAD_INPUT);
    layout.cuts[0]++;
    expect_refused(&layout, 1);
    layout.cuts[0]--;
    layout.cuts[4]--;
    expect_refused(&layout, 1);
    layout.cuts[4] = UINT32_MAX;
    expect_refused(&layout, 1);
    layout.cuts[4] = 100;
    layout.cuts[2] = 101;
    expect_refused(&layout, 1);
    lay(100, 4, 5);
    r = layout.names[0];
    layout.names[0] = layout.names[1];
    expect_refused(&layout, 1);
    layout.names[0] = 4;
    expect_refused(&layout, 1);
    layout.names[0] = r;
    EXPECT(lists_of(&layout, 1, &lists) == TEZGUMI_OK);
    expect_lists(1);
    /* Ranges that all ranks hold, which together are more than there can be. */
    layout.n = layout.cuts[4] = layout.cuts[3] = layout.cuts[2] = layout.cuts[1] = UINT32_MAX;
    for (r = 0; r < 4; r++) {
        layout.firsts[r] = 0;
        layout.counts[r] = UINT32_MAX;
    }
    expect_refused(&layout, (int)layout.names[0]);
    free_lists();
}

/* Each request for memory is refused in turn. */
static void refused_memory(void)
{
    tezgumi_mpi_lists before;
    lay(200, 7, 3);
    live = 0;
    EXPECT(lists_of(&layout, 2, &lists) == TEZGUMI_OK && requests == 2 && live == 1);
    before = lists;
    for (refuse_at = 1; refuse_at <= 2; refuse_at++) {
        EXPECT(lists_of(&layout, 3, &lists) == TEZGUMI_NO_MEMORY && live == 1);
        EXPECT(memcmp(&before, &lists, sizeof lists) == 0);
        expect_lists(2);
    }
    refuse_at = 0;
    EXPECT(lists_of(&layout, 3, &lists) == TEZGUMI_OK && live == 1);
    expect_lists(3);
    free_lists();
    EXPECT(live == 0);
}

int main(int argc, char **argv)
{
    begin_tests(&argc, &argv);
    run_test("imports and exports at random", at_random);
    run_test("imports and exports of a move under way", under_way);
    run_test("imports and exports of bad layouts", refusals);
    run_test("memory refused, of imports and exports", refused_memory);
    tezgumi_mpi_layout_free(&layout);
    return end_tests();
}
