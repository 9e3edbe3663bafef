/* Small runs, each decision against all divisions and all namings there are. */
#include "harness.h"
#include <tezgumi.h>

enum { ELEMENTS = 7, PES = 4, RUNS = 3000 };

typedef struct {
    uint32_t n, procs, pes;
    uint64_t loads[ELEMENTS];
    uint32_t bytes[ELEMENTS], places[ELEMENTS];
} small_run;

static uint64_t seed = 1;

static uint32_t below(uint32_t n)
{
    seed = seed * UINT64_C(6364136223846793005) + UINT64_C(1442695040888963407);
    return (uint32_t)(seed >> 33) % n;
}

static small_run any_run(void)
{
    small_run r;
    const uint32_t greatest = 1 + below(9);
    uint32_t i;
    r.n = below(ELEMENTS + 1);
    r.procs = 1 + below(PES + 2);
    r.pes = 1 + below(PES);
    for (i = 0; i < ELEMENTS; i++) {
        r.loads[i] = below(greatest);
        r.bytes[i] = below(4);
        r.places[i] = below(r.procs);
    }
    return r;
}

static uint64_t load(const small_run *r, uint32_t first, uint32_t end)
{
    uint64_t sum = 0;
    for (; first < end; first++) sum += r->loads[first];
    return sum;
}

/* The least peak of all divisions of the elements from first on into so many blocks. */
static uint64_t least_peak(const small_run *r, uint32_t first, uint32_t blocks)
{
    uint64_t least = load(r, first, r->n);
    uint32_t end;
    if (blocks == 1) return least;
    for (end = first; end <= r->n; end++) {
        const uint64_t here = load(r, first, end), rest = least_peak(r, end, blocks - 1);
        const uint64_t peak = here > rest ? here : rest;
        if (peak < least) least = peak;
    }
    return least;
}

static uint64_t bytes_moved(const small_run *r, const uint32_t *cuts, const uint32_t *names)
{
    uint64_t sum = 0;
    uint32_t b, i;
    for (b = 0; b < r->pes; b++)
        for (i = cuts[b]; i < cuts[b + 1]; i++) sum += r->places[i] == names[b] ? 0 : r->bytes[i];
    return sum;
}

/* The first naming in dictionary order, of those that move the fewest bytes. */
typedef struct {
    uint64_t fewest;
    uint32_t names[PES];
} best_naming;

static void try_names(const small_run *r, const uint32_t *cuts, uint32_t *names, uint32_t block, best_naming *best)
{
    uint32_t pe, b;
    if (block == r->pes) {
        const uint64_t moved = bytes_moved(r, cuts, names);
        if (moved >= best->fewest) return;
        best->fewest = moved;
        memcpy(best->names, names, sizeof best->names);
        return;
    }
    for (pe = 0; pe < r->pes; pe++) {
        for (b = 0; b < block && names[b] != pe; b++) {}
        if (b < block) continue;
        names[block] = pe;
        try_names(r, cuts, names, block + 1, best);
    }
}

/* The cuts of which each block but the last is as long as the peak lets it be. */
static void longest_blocks(const small_run *r, uint64_t peak, uint32_t *cuts)
{
    uint32_t b, end = 0;
    cuts[0] = 0;
    for (b = 0; b < r->pes; b++) {
        while (end < r->n && load(r, cuts[b], end + 1) <= peak) end++;
        cuts[b + 1] = end;
    }
}

static int is_best(const small_run *r, const tezgumi_decision *d)
{
    uint32_t cuts[PES + 1], names[PES] = {0}, b, i;
    best_naming best = {UINT64_MAX, {0}};
    const uint64_t peak = least_peak(r, 0, r->pes);
    longest_blocks(r, peak, cuts);
    try_names(r, cuts, names, 0, &best);
    if (d->bottleneck != peak || d->moved != best.fewest) return 0;
    if (memcmp(d->cuts, cuts, (r->pes + 1) * sizeof *cuts) || memcmp(d->names, best.names, r->pes * sizeof *names)) return 0;
    for (b = 0; b < r->pes; b++)
        for (i = cuts[b]; i < cuts[b + 1]; i++)
            if (d->new_places[i] != best.names[b]) return 0;
    return 1;
}

int main(void)
{
    int best = 1, planned = 1, checked = 1, turn;
    for (turn = 0; turn < RUNS; turn++) {
        const small_run r = any_run();
        const tezgumi_run run = {r.n, r.procs, r.loads, r.bytes, r.places};
        uint32_t places[ELEMENTS];
        uint64_t bottleneck, moved;
        tezgumi_decision d;
        if (tezgumi_decision_room(&d, r.n, r.pes) != TEZGUMI_OK) return 1;
        best = best && tezgumi_decide_run(&run, &d) == TEZGUMI_OK && is_best(&r, &d);
        checked = checked && tezgumi_check_run(&run, &d) == TEZGUMI_OK;
        planned = planned && tezgumi_plan_run(&run, r.pes, places, &bottleneck, &moved) == TEZGUMI_OK && bottleneck == d.bottleneck
            && moved == d.moved && !memcmp(places, d.new_places, r.n * sizeof *places);
        tezgumi_decision_free(&d);
    }
    test("each decision is the best of all there are", best);
    test("each is accepted", checked);
    test("each plan is that of the decision", planned);
    return failures != 0;
}
