/* Divides a long chain over the ranks, none of which sees all elements, and moves it, turn by turn; beside it rank 0 divides all of
 * it, as a program does whose first rank has gathered the loads.
 *
 *     mpicc -std=c99 -O2 bench/long_chains.c $(pkg-config --cflags --libs tezgumi-mpi) -o long_chains
 *     mpirun -n 4 ./long_chains [--elements=1000000] [--loads=even|skew|spot|giant] [--turns=3] [--alone] [--tolerance=0.05]
 *
 * Loads are 50 to 150 with noise (even), one in a thousand of them up to 20,000 more (skew), up to 2,100 where a hot spot has
 * come (spot), or one of them nearly as great as a rank's share (giant); they change from turn to turn. An element has 8 bytes
 * to move. Rank 0 prints for each turn the milliseconds of the steps, on the slowest rank; the runs that were gathered, and
 * the passes; how much was moved; and whether bottleneck and cuts are those of the whole chain. --alone leaves the whole
 * chain out. With a tolerance the ranks keep their order, and the fewest bytes move; then the whole chain is left out. At the end the
 * peak of a rank's memory beside its own lists, of 20 bytes an element.
 */
#define _POSIX_C_SOURCE 200112L
#include <stdio.h>
#include <sys/resource.h>
#include <tezgumi_mpi.h>
#include <tezgumi_parts.h>

enum { STEPS = 7 };

static int rank, ranks, turns = 3, alone;
static uint32_t n = 1000000;
static char loads_like[8] = "even";
static tezgumi_mpi_options options;

/* What this rank holds: the elements first .. first + count - 1. Values come and go by callbacks. */
static tezgumi_mpi_part part;
static uint64_t *own_loads, *values, *arrived;
static uint32_t *own_bytes, arrived_first;

static void understand(int argc, char **argv)
{
    int k;
    for (k = 1; k < argc; k++) {
        if (sscanf(argv[k], "--elements=%u", &n) == 1 || sscanf(argv[k], "--turns=%d", &turns) == 1) continue;
        if (sscanf(argv[k], "--loads=%7s", loads_like) == 1) continue;
        if (sscanf(argv[k], "--tolerance=%lf", &options.tolerance) == 1) {
            options.refine = options.keep_order = alone = 1;
            continue;
        }
        if (strcmp(argv[k], "--alone") == 0) {
            alone = 1;
            continue;
        }
        if (rank == 0) fprintf(stderr, "long_chains: %s is not known\n", argv[k]);
        MPI_Abort(MPI_COMM_WORLD, 2);
    }
}

static void *room_for(size_t count, size_t size)
{
    void *room = malloc(count * size + 1);
    if (!room) MPI_Abort(MPI_COMM_WORLD, 1);
    return room;
}

/* Numbers without an order: splitmix64 of G. Steele, D. Lea and C. Flood, OOPSLA 2014. */
static uint64_t noise(uint64_t i, int turn)
{
    uint64_t z = i + UINT64_C(0x9e3779b97f4a7c15) * (uint64_t)(turn + 1);
    z = (z ^ z >> 30) * UINT64_C(0xbf58476d1ce4e5b9);
    z = (z ^ z >> 27) * UINT64_C(0x94d049bb133111eb);
    return z ^ z >> 31;
}

static uint64_t load_of(uint32_t i, int turn)
{
    const uint64_t r = noise(i, turn);
    double from;
    switch (loads_like[1]) {
    case 'i': return 50 + r % 101 + (i == n / 3 ? (uint64_t)n * 90 / (uint64_t)ranks : 0);
    case 'k': return 100 + (r % 1000 == 0 ? (r >> 20) % 20000 : 0);
    case 'p':
        from = (double)i / n - 0.3 - 0.02 * turn;
        return 50 + r % 51 + (uint64_t)(2000 / (1 + from * from * 40000));
    default: return 50 + r % 101;
    }
}

static int pack(void *app, uint32_t index, void *to, uint32_t bytes)
{
    (void)app;
    memcpy(to, &values[index - part.first], bytes);
    return 0;
}

static int unpack(void *app, uint32_t index, const void *from, uint32_t bytes)
{
    (void)app;
    memcpy(&arrived[index - arrived_first], from, bytes);
    return 0;
}

/* The range of this rank from now on. */
static void find_new(const tezgumi_mpi_layout *l, uint32_t *first, uint32_t *count)
{
    uint32_t b = 0;
    while (l->names[b] != (uint32_t)rank) b++;
    *first = l->cuts[b];
    *count = l->cuts[b + 1] - l->cuts[b];
}

/* Gets the lists of a range. */
static void hold(uint32_t first, uint32_t count)
{
    uint32_t i;
    free(own_loads);
    free(own_bytes);
    own_loads = (uint64_t *)room_for(count, sizeof *own_loads);
    own_bytes = (uint32_t *)room_for(count, sizeof *own_bytes);
    for (i = 0; i < count; i++) own_bytes[i] = sizeof *values;
    part.loads = own_loads;
    part.bytes = own_bytes;
    part.first = first;
    part.count = count;
}

/* Moves, with a new list for the values, into which those that stay are copied. */
static int move(tezgumi_mpi_layout *l, tezgumi_mpi_report *report)
{
    const tezgumi_mpi_callbacks callbacks = {pack, unpack, NULL, NULL};
    uint32_t first, count, i, wrong = 0;
    int status;
    find_new(l, &first, &count);
    arrived = (uint64_t *)room_for(count, sizeof *arrived);
    arrived_first = first;
    for (i = first; i < first + count; i++)
        if (i >= part.first && i < part.first + part.count) arrived[i - first] = values[i - part.first];
    status = tezgumi_mpi_move_part(MPI_COMM_WORLD, &part, l, &callbacks, NULL, report);
    free(values);
    values = arrived;
    hold(first, count);
    for (i = 0; i < count; i++) wrong += values[i] != noise(first + i, -1);
    if (wrong > 0) fprintf(stderr, "long_chains: %u elements are wrong on rank %d\n", wrong, rank);
    return status;
}

static double slowest(double seconds)
{
    double most;
    MPI_Allreduce(&seconds, &most, 1, MPI_DOUBLE, MPI_MAX, MPI_COMM_WORLD);
    return most;
}

/* Divides the whole chain on this rank, and checks it. */
static void beside(const tezgumi_mpi_layout *l, const tezgumi_mpi_report *report, int turn)
{
    const uint32_t p = (uint32_t)ranks;
    const size_t cuts_len = (size_t)p + 1;
    uint64_t *loads = (uint64_t *)room_for(n, sizeof *loads), *sums = (uint64_t *)room_for(2 * (size_t)p, sizeof *sums), bottleneck;
    uint32_t *cuts = (uint32_t *)room_for(2 * cuts_len, sizeof *cuts), i;
    size_t stops = 0;
    double begin, divided;
    int status, same;
    for (i = 0; i < n; i++) loads[i] = load_of(i, turn);
    begin = MPI_Wtime();
    status = tezgumi_divide(loads, n, p, &bottleneck, cuts, cuts_len, cuts + cuts_len, cuts_len, &stops);
    divided = MPI_Wtime();
    if (status == TEZGUMI_OK)
        status = tezgumi_part_loads(loads, n, 0, p, cuts, cuts_len, cuts + cuts_len, stops, sums, p, sums + p, p);
    if (status == TEZGUMI_OK) status = tezgumi_check_division(n, p, bottleneck, cuts, cuts_len, cuts + cuts_len, stops, sums, p, sums + p, p);
    same = bottleneck == report->max_load_after && memcmp(cuts, l->cuts, cuts_len * sizeof *cuts) == 0;
    printf("  whole chain on one rank: divide %.3f ms, check %.3f ms: %s, %s\n", 1e3 * (divided - begin), 1e3 * (MPI_Wtime() - divided),
        tezgumi_mpi_status_name(status), same ? "same bottleneck and cuts" : "OTHER BOTTLENECK OR CUTS");
    free(loads);
    free(sums);
    free(cuts);
}

static void turn_once(tezgumi_mpi_layout *l, int turn)
{
    static const char *const names[STEPS] = {"gather", "walks", "plan", "check", "names", "agree", "move"};
    tezgumi_mpi_report report;
    double decided, seconds[STEPS];
    uint32_t i;
    int k, status;
    for (i = 0; i < part.count; i++) own_loads[i] = load_of(part.first + i, turn);
    MPI_Barrier(MPI_COMM_WORLD);
    decided = MPI_Wtime();
    status = tezgumi_mpi_decide_part(MPI_COMM_WORLD, &part, &options, l, &report);
    decided = slowest(MPI_Wtime() - decided);
    if (rank == 0)
        printf("turn %d: %s: decide %.3f ms: greatest load %.6f of the average, %u runs gathered, %u passes, %u moved\n", turn,
            tezgumi_mpi_status_name(status), 1e3 * decided, (double)report.max_load_after / report.average_load, report.gathered,
            report.passes, report.elements_moved);
    if (status != TEZGUMI_OK) MPI_Abort(MPI_COMM_WORLD, 1);
    if (rank == 0 && !alone) beside(l, &report, turn);
    MPI_Barrier(MPI_COMM_WORLD);
    status = move(l, &report);
    if (status != TEZGUMI_OK) MPI_Abort(MPI_COMM_WORLD, 1);
    seconds[0] = report.gather_seconds;
    seconds[1] = report.walk_seconds;
    seconds[2] = report.plan_seconds;
    seconds[3] = report.check_seconds;
    seconds[4] = report.name_seconds;
    seconds[5] = report.agree_seconds;
    seconds[6] = report.move_seconds;
    for (k = 0; k < STEPS; k++) {
        const double most = slowest(seconds[k]);
        if (rank == 0) printf("%s%s %.3f", k ? ", " : "  ", names[k], 1e3 * most);
    }
    if (rank == 0) printf("\n");
}

int main(int argc, char **argv)
{
    tezgumi_mpi_layout layout = {0};
    struct rusage usage;
    uint32_t i, most;
    long long peak, least = 0;
    int turn;
    MPI_Init(&argc, &argv);
    MPI_Comm_rank(MPI_COMM_WORLD, &rank);
    MPI_Comm_size(MPI_COMM_WORLD, &ranks);
    understand(argc, argv);
    hold((uint32_t)((uint64_t)n * (uint32_t)rank / (uint32_t)ranks),
        (uint32_t)((uint64_t)n * (uint32_t)(rank + 1) / (uint32_t)ranks - (uint64_t)n * (uint32_t)rank / (uint32_t)ranks));
    values = (uint64_t *)room_for(part.count, sizeof *values);
    for (i = 0; i < part.count; i++) values[i] = noise(part.first + i, -1);
    for (turn = 0; turn < turns; turn++) turn_once(&layout, turn);
    getrusage(RUSAGE_SELF, &usage);
    peak = usage.ru_maxrss * 1024LL - 20LL * part.count;
    MPI_Reduce(&peak, &least, 1, MPI_LONG_LONG, MPI_MAX, 0, MPI_COMM_WORLD);
    MPI_Reduce(&part.count, &most, 1, MPI_UINT32_T, MPI_MAX, 0, MPI_COMM_WORLD);
    if (rank == 0)
        printf("%d ranks, %u elements, at most %u on a rank: peak memory of a rank beside its own lists %.1f MiB\n", ranks, n, most,
            (double)least / 1048576);
    tezgumi_mpi_layout_free(&layout);
    free(own_loads);
    free(own_bytes);
    free(values);
    MPI_Finalize();
    return 0;
}
