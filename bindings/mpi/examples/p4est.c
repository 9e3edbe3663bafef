/* A forest of quadrants that is refined where a spot wanders, and whose quadrants near the spot are more work. After each step the
 * quadrants are dealt out anew: tezgumi_mpi_decide_part decides, of the weights as loads, and p4est_partition_given moves; or,
 * with --by=p4est, p4est_partition_ext does both. With --refine the fewest quadrants move that the tolerance lets.
 *
 *     mpicc -std=c99 p4est.c $(pkg-config --cflags --libs tezgumi-mpi) -lp4est -lsc
 *     mpirun -n 4 ./a.out --by=tezgumi --steps=20 --finest=7 --tolerance=0.05 --refine
 *
 * It prints what came out: the greatest load of a rank over the average, on average over the steps and at most, the quadrants that
 * moved, and a checksum of the forest, which is one however the quadrants are dealt out. */
#include <p4est.h>
#include <p4est_algorithms.h>
#include <p4est_bits.h>
#include <p4est_extended.h>
#include <stdio.h>
#include <stdlib.h>
#include <string.h>
#include <tezgumi_mpi.h>

enum { COARSEST = 3, MOST_WORK = 24 };

/* Where the spot is, in a square of side 1, how far its work reaches, and the finest level of quadrants. */
typedef struct {
    double x, y, reach;
    int finest;
} spot;

/* What is asked for. */
typedef struct {
    int by_p4est, steps, finest, refine;
    double tolerance;
} request;

/* How near a quadrant's middle is to the spot: 1 where they meet, and 0 at its reach and beyond. */
static double nearness(const spot *s, const p4est_quadrant_t *q)
{
    const double side = P4EST_QUADRANT_LEN(q->level) / (double)P4EST_ROOT_LEN;
    const double dx = q->x / (double)P4EST_ROOT_LEN + side / 2 - s->x, dy = q->y / (double)P4EST_ROOT_LEN + side / 2 - s->y;
    const double square = (dx * dx + dy * dy) / (s->reach * s->reach);
    return square < 1 ? 1 - square : 0;
}

/* The work of a quadrant, which is its weight for p4est. */
static int weight_of(p4est_t *forest, p4est_topidx_t tree, p4est_quadrant_t *q)
{
    (void)tree;
    return 1 + (int)(MOST_WORK * nearness((const spot *)forest->user_pointer, q));
}

static int is_coarse(p4est_t *forest, p4est_topidx_t tree, p4est_quadrant_t *q)
{
    const spot *s = (const spot *)forest->user_pointer;
    (void)tree;
    return q->level < s->finest && nearness(s, q) > 0.5;
}

/* The spot goes round once in all steps, along four parabolas. */
static spot spot_at(int step, const request *r)
{
    const double turn = 4.0 * step / r->steps;
    const int quarter = (int)turn % 4;
    const double t = turn - (int)turn, along = 0.2 + 0.6 * t, across = 0.2 - 0.4 * t * (1 - t);
    spot s = {along, across, 0.15, 0};
    s.finest = r->finest;
    if (quarter == 1) s.x = 1 - across, s.y = along;
    if (quarter == 2) s.x = 1 - along, s.y = 1 - across;
    if (quarter == 3) s.x = across, s.y = 1 - along;
    return s;
}

/* The loads of this rank's quadrants, in their order, and their load together. */
static uint64_t find_loads(p4est_t *forest, uint64_t *loads)
{
    uint64_t all = 0;
    size_t k, count = 0;
    p4est_topidx_t t;
    for (t = forest->first_local_tree; t <= forest->last_local_tree; t++) {
        sc_array_t *quadrants = &p4est_tree_array_index(forest->trees, t)->quadrants;
        for (k = 0; k < quadrants->elem_count; k++) {
            const int weight = weight_of(forest, t, p4est_quadrant_array_index(quadrants, k));
            if (loads) loads[count++] = (uint64_t)weight;
            all += (uint64_t)weight;
        }
    }
    return all;
}

/* Moves the quadrants to where a layout has them, which keeps the order of the ranks. How many moved. */
static p4est_gloidx_t move_by(p4est_t *forest, const tezgumi_mpi_layout *layout)
{
    p4est_locidx_t *counts = (p4est_locidx_t *)malloc(layout->ranks * sizeof *counts);
    p4est_gloidx_t moved;
    uint32_t b;
    if (!counts) MPI_Abort(MPI_COMM_WORLD, 1);
    for (b = 0; b < layout->ranks; b++) counts[b] = (p4est_locidx_t)(layout->cuts[b + 1] - layout->cuts[b]);
    moved = p4est_partition_given(forest, counts);
    free(counts);
    return moved;
}

/* Decides, and moves if that is worth it. A quadrant's bytes are those that p4est sends of it. */
static p4est_gloidx_t rebalance(p4est_t *forest, const request *r)
{
    const size_t count = (size_t)forest->local_num_quadrants;
    const tezgumi_mpi_options options = {r->tolerance, 0, 0, r->refine, 1};
    uint64_t *loads = (uint64_t *)malloc(count * sizeof *loads + 1);
    uint32_t *bytes = (uint32_t *)malloc(count * sizeof *bytes + 1);
    tezgumi_mpi_layout layout;
    tezgumi_mpi_report report;
    tezgumi_mpi_part part;
    p4est_gloidx_t moved = 0;
    size_t k;
    int status;
    if (!loads || !bytes) MPI_Abort(MPI_COMM_WORLD, 1);
    find_loads(forest, loads);
    for (k = 0; k < count; k++) bytes[k] = (uint32_t)(sizeof(p4est_quadrant_t) + forest->data_size);
    part.loads = loads;
    part.bytes = bytes;
    part.first = (uint32_t)forest->global_first_quadrant[forest->mpirank];
    part.count = (uint32_t)count;
    memset(&layout, 0, sizeof layout);
    status = tezgumi_mpi_decide_part(MPI_COMM_WORLD, &part, &options, &layout, &report);
    if (status == TEZGUMI_OK && report.elements_moved > 0) moved = move_by(forest, &layout);
    tezgumi_mpi_layout_free(&layout);
    free(loads);
    free(bytes);
    if (status == TEZGUMI_OK) return moved;
    fprintf(stderr, "rank %d: %s\n", forest->mpirank, tezgumi_mpi_status_name(status));
    MPI_Abort(MPI_COMM_WORLD, 1);
    return 0;
}

/* The greatest load of a rank over the average. */
static double imbalance(p4est_t *forest)
{
    uint64_t mine = find_loads(forest, NULL), most = 0, all = 0;
    MPI_Allreduce(&mine, &most, 1, MPI_UINT64_T, MPI_MAX, MPI_COMM_WORLD);
    MPI_Allreduce(&mine, &all, 1, MPI_UINT64_T, MPI_SUM, MPI_COMM_WORLD);
    return (double)most * forest->mpisize / (double)all;
}

static void wander(p4est_t *forest, const request *r)
{
    double sum = 0, worst = 0;
    p4est_gloidx_t moved = 0;
    unsigned checksum;
    int step;
    for (step = 0; step < r->steps; step++) {
        spot now = spot_at(step, r);
        double found;
        forest->user_pointer = &now;
        p4est_refine(forest, 1, is_coarse, NULL);
        p4est_balance(forest, P4EST_CONNECT_FULL, NULL);
        moved += r->by_p4est ? p4est_partition_ext(forest, 0, weight_of) : rebalance(forest, r);
        found = imbalance(forest);
        sum += found;
        if (found > worst) worst = found;
    }
    checksum = p4est_checksum(forest); /* on rank 0 */
    if (forest->mpirank != 0) return;
    printf("greatest/average %.4f, at most %.4f\n", sum / r->steps, worst);
    printf("moved %lld of %lld quadrants\n", (long long)moved, (long long)forest->global_num_quadrants);
    printf("checksum %08x\n", checksum);
}

/* 0 where a word is not known. */
static int read_word(const char *word, request *r)
{
    if (strcmp(word, "--by=p4est") == 0) r->by_p4est = 1;
    else if (strcmp(word, "--by=tezgumi") == 0) r->by_p4est = 0;
    else if (strcmp(word, "--refine") == 0) r->refine = 1;
    else if (sscanf(word, "--steps=%d", &r->steps) == 1) return r->steps > 0;
    else if (sscanf(word, "--finest=%d", &r->finest) == 1) return r->finest >= COARSEST && r->finest <= 12;
    else return sscanf(word, "--tolerance=%lf", &r->tolerance) == 1;
    return 1;
}

int main(int argc, char **argv)
{
    request r = {0, 20, 7, 0, 0};
    p4est_connectivity_t *square;
    p4est_t *forest;
    int i;
    MPI_Init(&argc, &argv);
    for (i = 1; i < argc; i++) {
        if (read_word(argv[i], &r)) continue;
        fprintf(stderr, "usage: p4est [--by=tezgumi|p4est] [--steps=N] [--finest=LEVEL] [--tolerance=X] [--refine]\n");
        MPI_Abort(MPI_COMM_WORLD, 2);
    }
    sc_init(MPI_COMM_WORLD, 1, 1, NULL, SC_LP_ERROR);
    p4est_init(NULL, SC_LP_ERROR);
    square = p4est_connectivity_new_unitsquare();
    forest = p4est_new_ext(MPI_COMM_WORLD, square, 0, COARSEST, 1, 0, NULL, NULL);
    wander(forest, &r);
    p4est_destroy(forest);
    p4est_connectivity_destroy(square);
    sc_finalize();
    return MPI_Finalize();
}
