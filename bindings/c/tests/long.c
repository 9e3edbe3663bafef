/* Runs past the limits of a dump, up to a million elements on 4,096 PEs: beside a plain search for the least bottleneck, and with
 * the prices added up here, so that no naming moves fewer bytes. */
#define _DEFAULT_SOURCE
#include "harness.h"
#include <stdlib.h>
#include <sys/mman.h>
#include <tezgumi_parts.h>

enum { MILLION = 1000000 };

static uint64_t loads[MILLION];
static uint32_t bytes[MILLION], places[MILLION];
static uint64_t state = 1;

static uint32_t below(uint32_t n)
{
    state = state * UINT64_C(6364136223846793005) + UINT64_C(1442695040888963407);
    return (uint32_t)((state >> 33) % n);
}

/* Fills as many blocks as there are PEs, each as long as the limit lets it be, and returns where the last of them ends. */
static uint32_t filled(const tezgumi_run *r, uint32_t pes, uint64_t limit, uint32_t *cuts)
{
    uint32_t b, end = 0;
    for (b = 0; b < pes; b++) {
        uint64_t load = 0;
        if (cuts) cuts[b] = end;
        while (end < r->n && r->loads[end] <= limit - load) load += r->loads[end++];
    }
    if (cuts) cuts[pes] = end;
    return end;
}

/* The least limit within which all elements are in blocks, by halving. */
static uint64_t least_bottleneck(const tezgumi_run *r, uint32_t pes)
{
    uint64_t low = 0, high = 0;
    uint32_t i;
    for (i = 0; i < r->n; i++) high += r->loads[i];
    while (low < high) {
        const uint64_t middle = low + (high - low) / 2;
        if (filled(r, pes, middle, NULL) == r->n) high = middle;
        else low = middle + 1;
    }
    return low;
}

/* Whether the cuts are those of the longest blocks within the bottleneck, and each place is the name of its block. */
static int is_divided(const tezgumi_run *r, const tezgumi_decision *d, uint64_t bottleneck)
{
    static uint32_t cuts[TEZGUMI_PES + 1];
    uint32_t b, i;
    filled(r, d->pes, bottleneck, cuts);
    if (d->bottleneck != bottleneck || memcmp(cuts, d->cuts, ((size_t)d->pes + 1) * sizeof *cuts)) return 0;
    for (b = 0; b < d->pes; b++)
        for (i = cuts[b]; i < cuts[b + 1]; i++)
            if (d->new_places[i] != d->names[b]) return 0;
    return 1;
}

/* Whether no block and PE have prices above the bytes that the block moves there, and all prices are the bytes that move. */
static int is_cheapest(const tezgumi_run *r, const tezgumi_decision *d)
{
    static uint64_t there[TEZGUMI_PES];
    uint64_t moved = 0;
    int64_t prices = 0;
    uint32_t b, i, p;
    for (b = 0; b < d->pes; b++) {
        uint64_t all = 0;
        memset(there, 0, sizeof there);
        for (i = d->cuts[b]; i < d->cuts[b + 1]; i++) {
            all += r->bytes[i];
            there[r->places[i]] += r->bytes[i];
        }
        for (p = 0; p < d->pes; p++)
            if (d->block_prices[b] + d->pe_prices[p] > (int64_t)(all - there[p])) return 0;
        moved += all - there[d->names[b]];
        prices += d->block_prices[b] + d->pe_prices[b];
    }
    return moved == d->moved && prices == (int64_t)moved;
}

/* A decision that is right, and that is refused with one of its numbers changed. */
static void checked(const tezgumi_run *r, tezgumi_decision *d)
{
    same("is accepted", tezgumi_check_run(r, d), TEZGUMI_OK);
    d->bottleneck--;
    same("but with no bottleneck less", tezgumi_check_run(r, d), TEZGUMI_HEAVY);
    d->bottleneck += 2;
    same("nor one more", tezgumi_check_run(r, d), TEZGUMI_FENCE_LIGHT);
    d->bottleneck--;
    d->moved++;
    same("nor a byte more", tezgumi_check_run(r, d), TEZGUMI_MOVED_WRONG);
    d->moved--;
    d->block_prices[d->pes - 1]--;
    same("nor a price less", tezgumi_check_run(r, d), TEZGUMI_PRICE_GAP);
    d->block_prices[d->pes - 1] += 1 + (int64_t)TEZGUMI_TOTAL_BYTES;
    same("nor one of too much", tezgumi_check_run(r, d), TEZGUMI_PRICE_HIGH);
    d->block_prices[d->pes - 1] -= (int64_t)TEZGUMI_TOTAL_BYTES;
    d->new_places[r->n - 1] = (d->new_places[r->n - 1] + 1) % d->pes;
    same("nor with another place of the last element", tezgumi_check_run(r, d), TEZGUMI_PLACES_WRONG);
}

static void decided(const char *what, uint32_t n, uint32_t procs, uint32_t pes)
{
    static uint32_t to[MILLION];
    const tezgumi_run run = {n, procs, loads, bytes, places};
    uint64_t bottleneck, moved;
    tezgumi_decision d;
    printf("%s:\n", what);
    same("room", tezgumi_decision_room(&d, n, pes), TEZGUMI_OK);
    same("the decision", tezgumi_decide_run(&run, &d), TEZGUMI_OK);
    test("has the least bottleneck and the longest blocks", is_divided(&run, &d, least_bottleneck(&run, pes)));
    test("moves the fewest bytes", is_cheapest(&run, &d));
    same("it is the plan", tezgumi_plan_run(&run, pes, to, &bottleneck, &moved), TEZGUMI_OK);
    test("in each place", bottleneck == d.bottleneck && moved == d.moved && !memcmp(to, d.new_places, n * sizeof *to));
    checked(&run, &d);
    tezgumi_decision_free(&d);
}

static void by_search(void)
{
    uint32_t i;
    for (i = 0; i < MILLION; i++) {
        loads[i] = 900 + below(200);
        bytes[i] = 64 + below(1000);
        places[i] = (uint32_t)((uint64_t)i * TEZGUMI_PES / MILLION);
    }
    decided("a million even loads on 4,096 PEs", MILLION, TEZGUMI_PES, TEZGUMI_PES);
    for (i = 0; i < MILLION; i++) loads[i] += i / 7919 == 50 ? 100000 : 0;
    decided("with a hot spot, on 1,000 of 4,096 PEs", MILLION, TEZGUMI_PES, 1000);
    for (i = 0; i < 70000; i++) {
        loads[i] = (uint64_t)below(UINT32_C(1) << 30) << 14;
        bytes[i] = below(UINT32_C(1) << 30);
        places[i] = below(290);
    }
    decided("70,000 loads of up to 2^44 on 300 PEs, scattered over 290", 70000, 290, 300);
    for (i = 0; i < 200; i++) loads[i] = i == 77 ? UINT64_C(1) << 62 : (uint64_t)below(UINT32_C(1) << 30) << 20;
    decided("200 elements on 300 PEs, one of 2^62", 200, 290, 300);
}

/* 2^32 elements, in lists that the system has no memory for: they are refused unread. */
static void too_many(void)
{
    const size_t n = (size_t)TEZGUMI_ELEMENTS + 1;
    void *all = mmap(NULL, n * sizeof(uint64_t), PROT_READ, MAP_PRIVATE | MAP_ANONYMOUS | MAP_NORESERVE, -1, 0);
    void *to = mmap(NULL, n * sizeof(uint64_t), PROT_READ | PROT_WRITE, MAP_PRIVATE | MAP_ANONYMOUS | MAP_NORESERVE, -1, 0);
    uint64_t bottleneck = 7, moved = 7;
    double unit = 7;
    if (all == MAP_FAILED || to == MAP_FAILED) {
        test("addresses for 2^32 elements", 0);
        return;
    }
    same("2^32 elements", tezgumi_plan((const uint64_t *)all, n, (const uint32_t *)all, n, (const uint32_t *)all, n, 1, 1,
        (uint32_t *)to, n, &bottleneck, &moved), TEZGUMI_BAD_INPUT);
    test("nothing is written", bottleneck == 7 && moved == 7);
    same("2^32 loads to be scaled", tezgumi_scale((const double *)all, n, (uint64_t *)to, n, &unit), TEZGUMI_BAD_INPUT);
    test("nothing is written", unit == 7);
    munmap(all, n * sizeof(uint64_t));
    munmap(to, n * sizeof(uint64_t));
}

/* Room for the largest run: all of it is there, or none. */
static void the_largest_room(void)
{
    tezgumi_decision d;
    const int32_t status = tezgumi_decision_room(&d, TEZGUMI_ELEMENTS, TEZGUMI_PES);
    test("room for 2^32 - 1 elements, or out of memory", status == TEZGUMI_OK || status == TEZGUMI_NO_MEMORY);
    if (status == TEZGUMI_OK) {
        d.new_places[0] = d.new_places[TEZGUMI_ELEMENTS - 1] = 7;
        test("its last entry is another than its first ones", d.new_places[1] == 0 && d.names[TEZGUMI_PES - 1] == 0);
        test("behind the lists of 4,096 PEs", d.names + TEZGUMI_PES == d.new_places && d.cuts + TEZGUMI_PES + 1 == d.stops);
    }
    tezgumi_decision_free(&d);
    test("all is given back", !d.room && !d.new_places);
}

/* As many blocks in parts as there may be, each of one element, and one more. */
static void most_blocks(void)
{
    enum { BLOCKS = TEZGUMI_PART_PES };
    static uint32_t cuts[BLOCKS + 2], stops[BLOCKS + 2];
    static uint64_t of_blocks[BLOCKS], of_ranges[BLOCKS];
    uint64_t bottleneck = 0;
    size_t count = 0;
    uint32_t i;
    int apart = 1;
    for (i = 0; i < BLOCKS; i++) loads[i] = 1;
    same("65,536 blocks", tezgumi_divide(loads, BLOCKS, BLOCKS, &bottleneck, cuts, BLOCKS + 1, stops, BLOCKS + 1, &count), TEZGUMI_OK);
    for (i = 0; i <= BLOCKS; i++) apart = apart && cuts[i] == i;
    test("have an element each", bottleneck == 1 && apart && count == BLOCKS + 1);
    same("their loads", tezgumi_part_loads(loads, BLOCKS, 0, BLOCKS, cuts, BLOCKS + 1, stops, count, of_blocks, BLOCKS, of_ranges, BLOCKS),
        TEZGUMI_OK);
    same("prove them least", tezgumi_check_division(BLOCKS, BLOCKS, bottleneck, cuts, BLOCKS + 1, stops, count, of_blocks, BLOCKS,
        of_ranges, BLOCKS), TEZGUMI_OK);
    same("65,537 blocks", tezgumi_divide(loads, BLOCKS, BLOCKS + 1, &bottleneck, cuts, BLOCKS + 2, stops, BLOCKS + 2, &count),
        TEZGUMI_BAD_INPUT);
}

/* As many blocks as can be named by a table, each with a byte on the next PE alone, and one more. */
static void most_names(void)
{
    enum { PES = TEZGUMI_NAMED_PES, MORE = PES + 1 };
    static uint32_t names[MORE];
    static int64_t of_blocks[MORE], of_pes[MORE];
    uint64_t *held = (uint64_t *)calloc((size_t)MORE * MORE, sizeof *held), moved = 7;
    uint32_t b;
    int next = 1;
    if (!held) {
        test("a table of 4,097 PEs", 0);
        return;
    }
    same("4,097 names", tezgumi_name(held, (size_t)MORE * MORE, MORE, names, MORE, of_blocks, MORE, of_pes, MORE, &moved), TEZGUMI_BAD_INPUT);
    test("nothing is written", moved == 7);
    for (b = 0; b < PES; b++) held[(size_t)b * PES + (b + 1) % PES] = 1;
    same("4,096 names", tezgumi_name(held, (size_t)PES * PES, PES, names, PES, of_blocks, PES, of_pes, PES, &moved), TEZGUMI_OK);
    for (b = 0; b < PES; b++) next = next && names[b] == (b + 1) % PES;
    test("are those of the next PEs", next && moved == 0);
    same("and are cheapest", tezgumi_check_names(held, (size_t)PES * PES, PES, names, PES, of_blocks, PES, of_pes, PES, 0), TEZGUMI_OK);
    free(held);
}

int main(void)
{
    by_search();
    too_many();
    the_largest_room();
    most_blocks();
    most_names();
    return failures != 0;
}
