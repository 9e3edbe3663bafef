/* Rebalances the same chain by this library and by two methods of Zoltan's, turn by turn, in one run.
 *
 *     beside_zoltan [--cells=8000] [--words=64] [--turns=60] [--period=200]
 *
 * Three copies of the chain begin alike, with the same loads in each turn: those of a hot spot that wanders. Each copy
 * stands where its own method left it. For each method rank 0 prints the greatest load over the average, the mean over all
 * turns; the bytes moved in all turns; and the least and the median seconds of a turn on the slowest rank, with the moving
 * of the elements. Of this library a turn is all of it: gather, plan, check, agreement and move. In brackets stands
 * the ratio to this library.
 */
#include <stdio.h>
#include "by_zoltan.h"

enum { METHODS = 3, PARTS = 5 };
static const char *const names[METHODS] = {"tezgumi", "RCB", "HSFC"};
static const char *const parts[PARTS] = {"gather", "plan", "check", "agree", "move"};

typedef struct {
    cells cells;
    by_zoltan zoltan;
    double imbalance; /* sum over the turns of the greatest load over the average */
    uint64_t bytes;
    double *seconds;      /* one for each turn, of the slowest rank */
    double *parts[PARTS]; /* the same, for the parts of a turn */
} method;

static int rank, ranks, n = 8000, words = 64, turns = 60, period = 200;
static tezgumi_mpi_element *mine;

static void understand(int argc, char **argv)
{
    int k;
    for (k = 1; k < argc; k++) {
        if (sscanf(argv[k], "--cells=%d", &n) == 1 || sscanf(argv[k], "--words=%d", &words) == 1) continue;
        if (sscanf(argv[k], "--turns=%d", &turns) == 1 || sscanf(argv[k], "--period=%d", &period) == 1) continue;
        if (rank == 0) fprintf(stderr, "beside_zoltan: %s is not known\n", argv[k]);
        MPI_Abort(MPI_COMM_WORLD, 2);
    }
}

/* The loads of a turn: known of every cell here, and the same for all methods. */
static uint64_t set_loads(cells *c, int turn)
{
    uint64_t total = 0;
    uint32_t i;
    for (i = 0; i < c->n; i++) {
        c->loads[i] = cells_heat(c->n, i, turn, period);
        total += c->loads[i];
    }
    return total;
}

static double slowest(double seconds)
{
    double most;
    MPI_Allreduce(&seconds, &most, 1, MPI_DOUBLE, MPI_MAX, MPI_COMM_WORLD);
    return most;
}

/* A turn by this library. The greatest load afterwards. */
static uint64_t turn_by_tezgumi(method *m, int turn)
{
    const tezgumi_mpi_callbacks callbacks = {cells_pack, cells_unpack, cells_drop, &m->cells};
    tezgumi_mpi_report report;
    const double begin = MPI_Wtime();
    const uint32_t count = cells_here(&m->cells, mine);
    if (tezgumi_mpi_rebalance(MPI_COMM_WORLD, mine, count, &callbacks, NULL, NULL, NULL, &report) != TEZGUMI_OK)
        MPI_Abort(MPI_COMM_WORLD, 1);
    m->seconds[turn] = slowest(MPI_Wtime() - begin);
    m->parts[0][turn] = slowest(report.gather_seconds);
    m->parts[1][turn] = slowest(report.plan_seconds);
    m->parts[2][turn] = slowest(report.check_seconds);
    m->parts[3][turn] = slowest(report.agree_seconds);
    m->parts[4][turn] = slowest(report.move_seconds);
    m->bytes += report.bytes_moved;
    return report.max_load_after;
}

static uint64_t turn_by_zoltan(method *m, int turn)
{
    by_zoltan_rebalance(&m->zoltan);
    m->seconds[turn] = slowest(m->zoltan.partition_seconds + m->zoltan.migrate_seconds);
    m->bytes += m->zoltan.elements_moved * cells_bytes(&m->cells);
    return m->zoltan.max_load;
}

static void take_turn(method *m, int by, int turn)
{
    const uint64_t total = set_loads(&m->cells, turn);
    uint64_t greatest;
    MPI_Barrier(MPI_COMM_WORLD);
    greatest = by == 0 ? turn_by_tezgumi(m, turn) : turn_by_zoltan(m, turn);
    m->imbalance += (double)greatest * ranks / (double)total;
}

static int in_order(const void *a, const void *b)
{
    const double x = *(const double *)a, y = *(const double *)b;
    return (x > y) - (x < y);
}

static void print(method *all)
{
    double median = 0, least = 0;
    int k;
    printf("%d cells of %d bytes, %d ranks, %d turns\n", n, 8 * words, ranks, turns);
    for (k = 0; k < METHODS; k++) {
        method *m = &all[k];
        qsort(m->seconds, (size_t)turns, sizeof *m->seconds, in_order);
        if (k == 0) least = m->seconds[0], median = m->seconds[turns / 2];
        printf("%-7s  greatest/average %.4f (%.4f)  bytes moved %llu (%.3f)", names[k], m->imbalance / turns,
            m->imbalance / all[0].imbalance, (unsigned long long)m->bytes, (double)m->bytes / (double)all[0].bytes);
        printf("  microseconds: least %.0f (%.2f), median %.0f (%.2f)\n", 1e6 * m->seconds[0], m->seconds[0] / least,
            1e6 * m->seconds[turns / 2], m->seconds[turns / 2] / median);
    }
    printf("         of the first, the median of each part:");
    for (k = 0; k < PARTS; k++) {
        qsort(all[0].parts[k], (size_t)turns, sizeof(double), in_order);
        printf(" %s %.0f", parts[k], 1e6 * all[0].parts[k][turns / 2]);
    }
    printf("\n");
}

static void open_method(method *m, const char *name)
{
    int k;
    cells_open(&m->cells, (uint32_t)n, (uint32_t)words, rank, ranks);
    by_zoltan_open(&m->zoltan, &m->cells, strcmp(name, "tezgumi") == 0 ? "RCB" : name);
    m->seconds = (double *)room_for((size_t)turns, sizeof *m->seconds);
    for (k = 0; k < PARTS; k++) m->parts[k] = (double *)room_for((size_t)turns, sizeof *m->seconds);
}

static void close_method(method *m)
{
    int k;
    by_zoltan_close(&m->zoltan);
    cells_close(&m->cells);
    free(m->seconds);
    for (k = 0; k < PARTS; k++) free(m->parts[k]);
}

int main(int argc, char **argv)
{
    static method all[METHODS];
    int turn, k;
    MPI_Init(&argc, &argv);
    MPI_Comm_rank(MPI_COMM_WORLD, &rank);
    MPI_Comm_size(MPI_COMM_WORLD, &ranks);
    understand(argc, argv);
    mine = (tezgumi_mpi_element *)room_for((size_t)n, sizeof *mine);
    for (k = 0; k < METHODS; k++) open_method(&all[k], names[k]);
    for (turn = 0; turn < turns; turn++)
        for (k = 0; k < METHODS; k++) take_turn(&all[(turn + k) % METHODS], (turn + k) % METHODS, turn);
    if (rank == 0) print(all);
    for (k = 0; k < METHODS; k++) close_method(&all[k]);
    free(mine);
    MPI_Finalize();
    return 0;
}
