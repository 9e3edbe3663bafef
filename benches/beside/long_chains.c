/* Decides and checks one long chain by libtezgumi, some times, and prints how long that took. benches/long_chains compiles and calls it.
 *
 *     long_chains ELEMENTS PES even|spot drifted|random TURNS
 *
 * Loads are 900 to 1,099 at random; with a spot, a fortieth of the chain weighs up to ten times as much. Elements are where the
 * least division of the former loads has them, which were others by noise, with the spot a hundredth of the chain before; or on
 * any PE at random.
 *
 * Prints five numbers: milliseconds of the division (tezgumi_divide), of the names (what tezgumi_decide takes beside that), and
 * of the check, the least of all turns; the most memory that the process had beside its lists, in KiB; and the greatest load over
 * the average.
 */
#define _POSIX_C_SOURCE 199309L
#include <stdio.h>
#include <tezgumi.h>
#include <tezgumi_parts.h>
#include <time.h>

static double now(void)
{
    struct timespec t;
    clock_gettime(CLOCK_MONOTONIC, &t);
    return 1e3 * (double)t.tv_sec + 1e-6 * (double)t.tv_nsec;
}

static void fail(const char *what)
{
    fprintf(stderr, "long_chains: %s\n", what);
    exit(1);
}

/* The memory that the process has now, VmRSS, or had at most, VmHWM, in KiB. */
static long memory(const char *name)
{
    char line[128];
    long found = -1;
    FILE *file = fopen("/proc/self/status", "r");
    while (file && fgets(line, sizeof line, file))
        if (!strncmp(line, name, strlen(name))) found = strtol(line + strlen(name) + 1, NULL, 10);
    if (found < 0) fail("there is no /proc/self/status");
    fclose(file);
    return found;
}

/* From here on the system notes anew what the process has at most. */
static void forget_most_memory(void)
{
    FILE *file = fopen("/proc/self/clear_refs", "w");
    if (!file || fputs("5", file) < 0 || fclose(file)) fail("/proc/self/clear_refs takes nothing");
}

static void *room(size_t count, size_t size)
{
    void *list = malloc((count ? count : 1) * size);
    if (!list) fail("out of memory");
    return list;
}

static uint64_t state = 1;

static uint32_t below(uint32_t n)
{
    state = state * UINT64_C(6364136223846793005) + UINT64_C(1442695040888963407);
    return (uint32_t)((state >> 33) % n);
}

/* Loads with noise, and a spot of a fortieth of the chain whose middle is here, in thousandths of the chain; none below 0. */
static void make_loads(uint64_t *loads, uint32_t n, int spot)
{
    const int64_t half = n / 80 + 1, middle = (int64_t)n * spot / 1000;
    uint32_t i;
    for (i = 0; i < n; i++) {
        const int64_t away = (int64_t)i < middle ? middle - i : (int64_t)i - middle;
        loads[i] = 900 + below(200);
        if (spot >= 0 && away < half) loads[i] += (uint64_t)(9000 * (half - away) / half);
    }
}

/* Puts each element on the PE of its block in the least division of these loads. */
static void divide_places(const uint64_t *loads, uint32_t n, uint32_t pes, uint32_t *places)
{
    uint32_t *cuts = room((size_t)pes + 1, sizeof *cuts), *stops = room((size_t)pes + 1, sizeof *stops), b, i;
    uint64_t bottleneck;
    size_t count;
    if (tezgumi_divide(loads, n, pes, &bottleneck, cuts, (size_t)pes + 1, stops, (size_t)pes + 1, &count)) fail("not divided");
    for (b = 0; b < pes; b++)
        for (i = cuts[b]; i < cuts[b + 1]; i++) places[i] = b;
    free(cuts);
    free(stops);
}

/* The least milliseconds of each step. */
typedef struct {
    double division, decision, check;
} times;

static void keep_least(double *least, double found)
{
    if (found < *least) *least = found;
}

static void take_turn(const tezgumi_run *run, tezgumi_decision *d, times *least)
{
    const size_t ends = (size_t)d->pes + 1;
    const double begin = now();
    double divided, decided;
    if (tezgumi_divide(run->loads, run->n, d->pes, &d->bottleneck, d->cuts, ends, d->stops, ends, &d->stops_count)) fail("not divided");
    divided = now();
    if (tezgumi_decide_run(run, d)) fail("not decided");
    decided = now();
    if (tezgumi_check_run(run, d)) fail("the decision is not right");
    keep_least(&least->check, now() - decided);
    keep_least(&least->decision, decided - divided);
    keep_least(&least->division, divided - begin);
}

int main(int count, char **words)
{
    const uint32_t n = count > 5 ? (uint32_t)strtoul(words[1], NULL, 10) : 0, pes = n ? (uint32_t)strtoul(words[2], NULL, 10) : 0;
    const int spot = n && !strcmp(words[3], "spot") ? 310 : -1, turns = n ? atoi(words[5]) : 0;
    times least = {1e300, 1e300, 1e300};
    uint64_t *loads, total = 0;
    uint32_t *bytes, *places, i;
    tezgumi_run run;
    tezgumi_decision d;
    long before;
    int turn;
    if (turns < 1) fail("ELEMENTS PES even|spot drifted|random TURNS");
    loads = room(n, sizeof *loads);
    bytes = room(n, sizeof *bytes);
    places = room(n, sizeof *places);
    make_loads(loads, n, spot < 0 ? spot : spot - 10);
    if (!strcmp(words[4], "drifted")) divide_places(loads, n, pes, places);
    else
        for (i = 0; i < n; i++) places[i] = below(pes);
    make_loads(loads, n, spot);
    for (i = 0; i < n; i++) {
        bytes[i] = 64 + below(960);
        total += loads[i];
    }
    if (tezgumi_decision_room(&d, n, pes)) fail("no room");
    memset(d.new_places, 1, n * sizeof *d.new_places); /* so that the system has given all of it */
    run.n = n;
    run.procs = pes;
    run.loads = loads;
    run.bytes = bytes;
    run.places = places;
    forget_most_memory();
    before = memory("VmRSS");
    for (turn = 0; turn < turns; turn++) take_turn(&run, &d, &least);
    printf("%.3f %.3f %.3f %ld %.6f\n", least.division, least.decision - least.division, least.check, memory("VmHWM") - before,
        (double)d.bottleneck * pes / (double)total);
    return 0;
}
