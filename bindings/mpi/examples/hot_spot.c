/* An application whose work shifts: a chain of cells over which a hot spot wanders.
 *
 *     hot_spot [--static | --balance | --zoltan] [--method=RCB] [--cells=4000] [--steps=400] [--every=10] [--words=64]
 *              [--period=2000] [--tolerance=0]
 *
 * In each step every cell is pulled by its two neighbours, and worked on for as many sweeps as the heat at its place asks
 * for. The cells stay where they are (--static), or are rebalanced after every so many steps, by this library
 * (--balance) or by a method of Zoltan's, if this was built with it. The result does not depend on that, nor on the
 * number of ranks: rank 0 prints its checksum, and what it took.
 */
#include <stdio.h>
#include "cells.h"
#ifdef WITH_ZOLTAN
#include "by_zoltan.h"
#endif

typedef enum { STATIC, BALANCE, ZOLTAN } balancing;

typedef struct {
    balancing how;
    char method[16];
    int cells, steps, every, words, period;
    double tolerance;
} settings;

/* Times of this rank, and what was moved. */
typedef struct {
    double all, work, gather, plan, check, agree, move, rebalance;
    uint64_t sweeps;         /* of this rank, in all steps */
    uint64_t busiest_sweeps; /* of the busiest rank of each step, in all steps */
    uint64_t elements_moved;
    int rebalances;
} tally;

typedef struct {
    settings set;
    int rank, ranks;
    cells chain_of_cells;
    uint32_t *owners;          /* the rank of each cell */
    double *means;             /* of the cells here, and of their neighbours */
    MPI_Request *requests;     /* room for two for each cell here */
    tezgumi_mpi_element *mine; /* room for all */
    tezgumi_mpi_chain chain;
    tally tally;
#ifdef WITH_ZOLTAN
    by_zoltan zoltan;
#endif
} application;

static int number_of(const char *word, const char *name, int *number)
{
    const size_t length = strlen(name);
    if (strncmp(word, name, length) != 0) return 0;
    *number = atoi(word + length);
    return *number > 0;
}

static int understood(settings *s, const char *word)
{
    if (strcmp(word, "--static") == 0) return s->how = STATIC, 1;
    if (strcmp(word, "--balance") == 0) return s->how = BALANCE, 1;
#ifdef WITH_ZOLTAN
    if (strcmp(word, "--zoltan") == 0) return s->how = ZOLTAN, 1;
    if (sscanf(word, "--method=%15[A-Z]", s->method) == 1) return 1;
#endif
    if (sscanf(word, "--tolerance=%lf", &s->tolerance) == 1) return 1;
    return number_of(word, "--cells=", &s->cells) || number_of(word, "--steps=", &s->steps)
        || number_of(word, "--every=", &s->every) || number_of(word, "--words=", &s->words)
        || number_of(word, "--period=", &s->period);
}

static settings settings_of(int argc, char **argv, int rank)
{
    settings s = {BALANCE, "RCB", 4000, 400, 10, 64, 2000, 0};
    int k;
    for (k = 1; k < argc; k++) {
        if (understood(&s, argv[k])) continue;
        if (rank == 0) fprintf(stderr, "hot_spot: %s is not known here\n", argv[k]);
        MPI_Finalize();
        exit(2);
    }
    return s;
}

/* Begins to exchange the means on both sides of the border between cell i and the next. */
static int exchange_border(application *a, uint32_t i, MPI_Request *requests)
{
    const uint32_t left = a->owners[i], right = a->owners[i + 1], here = (uint32_t)a->rank;
    const uint32_t own = left == here ? i : i + 1, other = left == here ? i + 1 : i;
    const int peer = (int)(left == here ? right : left);
    if (left == right || (left != here && right != here)) return 0;
    MPI_Irecv(&a->means[other], 1, MPI_DOUBLE, peer, 0, MPI_COMM_WORLD, &requests[0]);
    MPI_Isend(&a->means[own], 1, MPI_DOUBLE, peer, 0, MPI_COMM_WORLD, &requests[1]);
    return 2;
}

/* The means of the cells here and of all their neighbours. Two ranks exchange in order of the cells. */
static void learn_means(application *a)
{
    cells *c = &a->chain_of_cells;
    uint32_t i;
    int begun = 0;
    for (i = 0; i < c->n; i++)
        if (c->rows[i]) a->means[i] = cells_mean(c, i);
    for (i = 0; i + 1 < c->n; i++) begun += exchange_border(a, i, a->requests + begun);
    MPI_Waitall(begun, a->requests, MPI_STATUSES_IGNORE);
}

/* Works on the cells here. How many sweeps that were. */
static uint64_t work(application *a, int step)
{
    cells *c = &a->chain_of_cells;
    uint64_t done = 0;
    uint32_t i;
    for (i = 0; i < c->n; i++) {
        const uint32_t sweeps = cells_heat(c->n, i, step, a->set.period);
        if (!c->rows[i]) continue;
        cells_work(c, i, a->means[i ? i - 1 : i], a->means[i + 1 < c->n ? i + 1 : i], sweeps);
        done += sweeps;
    }
    return done;
}

static void balance(application *a)
{
    const tezgumi_mpi_callbacks callbacks = {cells_pack, cells_unpack, cells_drop, &a->chain_of_cells};
    tezgumi_mpi_options options = {0, 0, 0, 0, 0};
    tezgumi_mpi_report report;
    const uint32_t count = cells_here(&a->chain_of_cells, a->mine);
    int status;
    options.tolerance = a->set.tolerance;
    status = tezgumi_mpi_rebalance(MPI_COMM_WORLD, a->mine, count, &callbacks, &options, &a->chain, NULL, &report);
    if (status != TEZGUMI_OK) {
        fprintf(stderr, "rank %d: %s\n", a->rank, tezgumi_mpi_status_name(status));
        MPI_Abort(MPI_COMM_WORLD, 1);
    }
    memcpy(a->owners, a->chain.places, a->chain.n * sizeof *a->owners);
    a->tally.elements_moved += report.elements_moved;
    a->tally.gather += report.gather_seconds;
    a->tally.plan += report.plan_seconds;
    a->tally.check += report.check_seconds;
    a->tally.agree += report.agree_seconds;
    a->tally.move += report.move_seconds;
}

#ifdef WITH_ZOLTAN
/* Zoltan tells a rank of its own cells only. */
static void balance_by_zoltan(application *a)
{
    const cells *c = &a->chain_of_cells;
    uint32_t i;
    by_zoltan_rebalance(&a->zoltan);
    a->tally.elements_moved += a->zoltan.elements_moved;
    for (i = 0; i < c->n; i++) a->owners[i] = c->rows[i] ? (uint32_t)a->rank : 0;
    MPI_Allreduce(MPI_IN_PLACE, a->owners, (int)c->n, MPI_UINT32_T, MPI_MAX, MPI_COMM_WORLD);
}
#endif

static void rebalance(application *a)
{
    const double begin = MPI_Wtime();
    if (a->set.how == BALANCE) balance(a);
#ifdef WITH_ZOLTAN
    if (a->set.how == ZOLTAN) balance_by_zoltan(a);
#endif
    memset(a->chain_of_cells.loads, 0, a->chain_of_cells.n * sizeof *a->chain_of_cells.loads);
    a->tally.rebalance += MPI_Wtime() - begin;
    a->tally.rebalances++;
}

static void run(application *a)
{
    const double begin = MPI_Wtime();
    int step;
    for (step = 0; step < a->set.steps; step++) {
        uint64_t sweeps, most;
        double work_begin;
        if (a->set.how != STATIC && step > 0 && step % a->set.every == 0) rebalance(a);
        learn_means(a);
        work_begin = MPI_Wtime();
        sweeps = work(a, step);
        a->tally.work += MPI_Wtime() - work_begin;
        MPI_Allreduce(&sweeps, &most, 1, MPI_UINT64_T, MPI_MAX, MPI_COMM_WORLD);
        a->tally.sweeps += sweeps;
        a->tally.busiest_sweeps += most;
    }
    a->tally.all = MPI_Wtime() - begin;
}

/* Rank 0 prints the result, and the times of the rank that took longest for each. */
static void print(const application *a)
{
    static const char *const how[] = {"static", "balance", "zoltan"};
    const tally *t = &a->tally;
    const double mine[] = {t->all, t->work, t->rebalance, t->gather, t->plan, t->check, t->agree, t->move};
    double most[8];
    const uint64_t here[] = {cells_checksum(&a->chain_of_cells), t->sweeps};
    uint64_t sums[2];
    MPI_Reduce(mine, most, 8, MPI_DOUBLE, MPI_MAX, 0, MPI_COMM_WORLD);
    MPI_Reduce(here, sums, 2, MPI_UINT64_T, MPI_SUM, 0, MPI_COMM_WORLD);
    if (a->rank != 0) return;
    printf("%d cells, %d steps, %d ranks, %s%s%s\n", a->set.cells, a->set.steps, a->ranks, how[a->set.how],
        a->set.how == ZOLTAN ? " " : "", a->set.how == ZOLTAN ? a->set.method : "");
    printf("checksum %016llx\n", (unsigned long long)sums[0]);
    printf("sweeps of the busiest rank over the average: %.3f\n", (double)t->busiest_sweeps * a->ranks / (double)sums[1]);
    printf("seconds: %.3f in all, %.3f at work, %.4f for %d rebalances\n", most[0], most[1], most[2], t->rebalances);
    if (a->set.how == BALANCE)
        printf("  of which gather %.4f, plan %.4f, check %.4f, agree %.4f, move %.4f\n", most[3], most[4], most[5], most[6],
            most[7]);
    printf("moved: %llu cells, %llu bytes\n", (unsigned long long)t->elements_moved,
        (unsigned long long)(t->elements_moved * cells_bytes(&a->chain_of_cells)));
}

static void open_all(application *a)
{
    const uint32_t n = (uint32_t)a->set.cells;
    uint32_t i;
    cells_open(&a->chain_of_cells, n, (uint32_t)a->set.words, a->rank, a->ranks);
    a->owners = (uint32_t *)room_for(n, sizeof *a->owners);
    a->means = (double *)room_for(n, sizeof *a->means);
    a->requests = (MPI_Request *)room_for(2 * (size_t)n, sizeof *a->requests);
    a->mine = (tezgumi_mpi_element *)room_for(n, sizeof *a->mine);
    for (i = 0; i < n; i++) a->owners[i] = (uint32_t)((uint64_t)i * (uint64_t)a->ranks / n);
#ifdef WITH_ZOLTAN
    if (a->set.how == ZOLTAN) by_zoltan_open(&a->zoltan, &a->chain_of_cells, a->set.method);
#endif
}

static void close_all(application *a)
{
    cells_close(&a->chain_of_cells);
    tezgumi_mpi_chain_free(&a->chain);
    free(a->owners);
    free(a->means);
    free(a->requests);
    free(a->mine);
#ifdef WITH_ZOLTAN
    if (a->set.how == ZOLTAN) by_zoltan_close(&a->zoltan);
#endif
}

int main(int argc, char **argv)
{
    static application a;
    MPI_Init(&argc, &argv);
    MPI_Comm_rank(MPI_COMM_WORLD, &a.rank);
    MPI_Comm_size(MPI_COMM_WORLD, &a.ranks);
    a.set = settings_of(argc, argv, a.rank);
    open_all(&a);
    run(&a);
    print(&a);
    close_all(&a);
    MPI_Finalize();
    return 0;
}
