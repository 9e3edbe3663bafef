#include "harness.h"

int rank, ranks;
static int failures, failed_tests;

void complain(const char *file, int line, const char *what)
{
    failures++;
    if (failures <= 5) fprintf(stderr, "rank %d of %d: %s:%d: not so: %s\n", rank, ranks, file, line, what);
}

void begin_tests(int *argc, char ***argv)
{
    MPI_Init(argc, argv);
    MPI_Comm_rank(MPI_COMM_WORLD, &rank);
    MPI_Comm_size(MPI_COMM_WORLD, &ranks);
}

void run_test(const char *name, void (*test)(void))
{
    int all;
    failures = 0;
    test();
    MPI_Allreduce(&failures, &all, 1, MPI_INT, MPI_SUM, MPI_COMM_WORLD);
    failed_tests += all > 0;
    if (rank == 0) printf("%s: %s\n", all ? "FAILED" : "ok", name);
    fflush(stdout);
}

int end_tests(void)
{
    MPI_Finalize();
    return failed_tests > 0;
}

uint32_t next_random(uint32_t *seed, uint32_t below)
{
    *seed = *seed * 1664525u + 1013904223u;
    return (uint32_t)((uint64_t)(*seed >> 8) * below >> 24);
}

static unsigned char byte_of(uint32_t i, uint32_t k)
{
    return (unsigned char)(i * 31 + k * 7 + 1);
}

static uint32_t place_of(uint32_t i, uint32_t n, uint32_t *seed, dealing how)
{
    const uint32_t p = (uint32_t)ranks;
    switch (how) {
    case IN_ORDER: return (uint32_t)((uint64_t)i * p / n);
    case REVERSED: return p - 1 - (uint32_t)((uint64_t)i * p / n);
    case SCATTERED: return next_random(seed, p);
    default: return next_random(seed, (p + 1) / 2);
    }
}

static unsigned char *room_for(uint32_t bytes)
{
    unsigned char *room = (unsigned char *)malloc((size_t)bytes + 1);
    if (!room) MPI_Abort(MPI_COMM_WORLD, 1);
    return room;
}

void field_free(field *f)
{
    uint32_t i;
    for (i = 0; i < FIELD_MOST; i++) {
        free(f->held[i]);
        f->held[i] = NULL;
    }
}

static void fill(unsigned char *to, uint32_t i, uint32_t bytes)
{
    uint32_t k;
    for (k = 0; k < bytes; k++) to[k] = byte_of(i, k);
}

void deal_again(field *f)
{
    uint32_t i;
    field_free(f);
    f->fail_pack = f->fail_unpack = UINT32_MAX;
    f->packs = f->unpacks = f->drops = 0;
    for (i = 0; i < f->n; i++) {
        if (f->dealt[i] != (uint32_t)rank) continue;
        f->held[i] = room_for(f->size[i]);
        fill(f->held[i], i, f->size[i]);
    }
}

void deal(field *f, uint32_t n, uint32_t seed, dealing how)
{
    uint32_t i;
    f->n = n;
    for (i = 0; i < n; i++) {
        f->size[i] = next_random(&seed, 7) == 0 ? 0 : next_random(&seed, 500);
        f->load[i] = next_random(&seed, 5) == 0 ? 0 : next_random(&seed, i < n / 3 ? 1000 : 100);
        f->dealt[i] = place_of(i, n, &seed, how);
    }
    deal_again(f);
}

uint32_t elements_of(const field *f, tezgumi_mpi_element *mine)
{
    uint32_t i, count = 0;
    for (i = 0; i < f->n; i++) {
        if (!f->held[i]) continue;
        mine[count] = mine[count / 2]; /* the newest to the middle, whose last one goes to the end */
        mine[count / 2].index = i;
        mine[count / 2].load = f->load[i];
        mine[count / 2].bytes = f->size[i];
        count++;
    }
    return count;
}

int field_pack(void *app, uint32_t index, void *to, uint32_t bytes)
{
    field *f = (field *)app;
    EXPECT(index < f->n && f->held[index] && bytes == f->size[index]);
    EXPECT(to && (uintptr_t)to % 16 == 0);
    f->packs++;
    if (index == f->fail_pack) return 1;
    memcpy(to, f->held[index], bytes);
    return 0;
}

int field_unpack(void *app, uint32_t index, const void *from, uint32_t bytes)
{
    field *f = (field *)app;
    EXPECT(index < f->n && !f->held[index] && bytes == f->size[index]);
    EXPECT(from && (uintptr_t)from % 16 == 0);
    f->unpacks++;
    if (index == f->fail_unpack) return -1;
    f->held[index] = room_for(bytes);
    memcpy(f->held[index], from, bytes);
    return 0;
}

void field_drop(void *app, uint32_t index)
{
    field *f = (field *)app;
    EXPECT(index < f->n && f->held[index]);
    f->drops++;
    free(f->held[index]);
    f->held[index] = NULL;
}

tezgumi_mpi_callbacks callbacks_of(field *f)
{
    tezgumi_mpi_callbacks callbacks;
    callbacks.pack = field_pack;
    callbacks.unpack = field_unpack;
    callbacks.drop = field_drop;
    callbacks.app = f;
    return callbacks;
}

int rebalance(field *f, const tezgumi_mpi_options *options, tezgumi_mpi_chain *chain, tezgumi_mpi_report *report)
{
    static tezgumi_mpi_element mine[FIELD_MOST];
    const tezgumi_mpi_callbacks callbacks = callbacks_of(f);
    const uint32_t count = elements_of(f, mine);
    return tezgumi_mpi_rebalance(MPI_COMM_WORLD, mine, count, &callbacks, options, chain, NULL, report);
}

void expect_whole(const field *f)
{
    static unsigned char expected[1 << 20];
    static int here[FIELD_MOST], all[FIELD_MOST];
    uint32_t i;
    for (i = 0; i < f->n; i++) {
        here[i] = f->held[i] != NULL;
        if (!here[i]) continue;
        fill(expected, i, f->size[i]);
        EXPECT(memcmp(expected, f->held[i], f->size[i]) == 0);
    }
    MPI_Allreduce(here, all, (int)f->n, MPI_INT, MPI_SUM, MPI_COMM_WORLD);
    for (i = 0; i < f->n; i++) EXPECT(all[i] == 1);
}

void expect_at(const field *f, const uint32_t *places)
{
    uint32_t i;
    for (i = 0; i < f->n; i++) EXPECT((f->held[i] != NULL) == (places[i] == (uint32_t)rank));
}

void expect_same(int64_t number)
{
    int64_t least, most;
    MPI_Allreduce(&number, &least, 1, MPI_INT64_T, MPI_MIN, MPI_COMM_WORLD);
    MPI_Allreduce(&number, &most, 1, MPI_INT64_T, MPI_MAX, MPI_COMM_WORLD);
    EXPECT(least == most);
}
