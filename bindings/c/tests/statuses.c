/* Each status: what is planned, each refusal with what it leaves, each flaw. The answers were worked out by hand. */
#include "harness.h"
#include <tezgumi.h>

enum { N = 3, P = 2, FULL = 32769 };

/* Elements of loads 1, 1 and 2 on PEs 0, 1 and 0. Two blocks have a bottleneck of 2, and begin at elements 0 and 2. The
 * first on PE 1 and the second on PE 0 moves element 0 alone, of 10 bytes; the other way round moves 9 + 8. */
static const uint64_t loads[N] = {1, 1, 2};
static const uint32_t bytes[N] = {10, 9, 8}, places[N] = {0, 1, 0};

/* Arguments of a call, each of which a test may change. */
typedef struct {
    const uint64_t *loads;
    const uint32_t *bytes, *places;
    size_t loads_len, bytes_len, places_len;
    uint32_t procs, pes;
} input;

typedef struct {
    uint32_t new_places[N], cuts[P + 1], stops[P + 1], names[P];
    int64_t block_prices[P], pe_prices[P];
    uint64_t bottleneck, moved;
    size_t new_places_len, cuts_len, stops_len, names_len, block_prices_len, pe_prices_len, stops_count;
} output;

static const input right_input = {loads, bytes, places, N, N, N, P, P};

static output empty_output(void)
{
    output o;
    memset(&o, 0x5a, sizeof o);
    o.new_places_len = N;
    o.cuts_len = o.stops_len = P + 1;
    o.names_len = o.block_prices_len = o.pe_prices_len = P;
    return o;
}

static int32_t plan(const input *i, output *o)
{
    return tezgumi_plan(i->loads, i->loads_len, i->bytes, i->bytes_len, i->places, i->places_len, i->procs, i->pes,
        o->new_places, o->new_places_len, &o->bottleneck, &o->moved);
}

static int32_t decide(const input *i, output *o)
{
    return tezgumi_decide(i->loads, i->loads_len, i->bytes, i->bytes_len, i->places, i->places_len, i->procs, i->pes,
        o->new_places, o->new_places_len, &o->bottleneck, &o->moved, o->cuts, o->cuts_len, o->stops, o->stops_len,
        &o->stops_count, o->names, o->names_len, o->block_prices, o->block_prices_len, o->pe_prices, o->pe_prices_len);
}

static int32_t check(const input *i, const output *o)
{
    return tezgumi_check(i->loads, i->loads_len, i->bytes, i->bytes_len, i->places, i->places_len, i->procs, i->pes,
        o->new_places, o->new_places_len, o->bottleneck, o->moved, o->cuts, o->cuts_len, o->stops, o->stops_count,
        o->names, o->names_len, o->block_prices, o->block_prices_len, o->pe_prices, o->pe_prices_len);
}

static output decided(void)
{
    output o = empty_output();
    decide(&right_input, &o);
    return o;
}

static void the_example(void)
{
    output o = empty_output(), p = empty_output();
    same("the example is planned", plan(&right_input, &p), TEZGUMI_OK);
    same("the bottleneck is 2", (long long)p.bottleneck, 2);
    same("10 bytes move", (long long)p.moved, 10);
    test("the places are 1, 1 and 0", p.new_places[0] == 1 && p.new_places[1] == 1 && p.new_places[2] == 0);
    same("the example is decided", decide(&right_input, &o), TEZGUMI_OK);
    test("as it was planned", o.bottleneck == 2 && o.moved == 10 && !memcmp(o.new_places, p.new_places, sizeof o.new_places));
    test("the cuts are 0, 2 and 3", o.cuts[0] == 0 && o.cuts[1] == 2 && o.cuts[2] == 3);
    test("the names are 1 and 0", o.names[0] == 1 && o.names[1] == 0);
    test("the stops are 0, 1 and 2", o.stops_count == 3 && o.stops[0] == 0 && o.stops[1] == 1 && o.stops[2] == 2);
    same("the decision is right", check(&right_input, &o), TEZGUMI_OK);
}

/* A call that is refused answers so whether it plans, decides or checks, and writes nothing. */
static void refused(const char *what, const input *i, int32_t status)
{
    const output before = empty_output(), claim = decided();
    output o = before;
    int holds = plan(i, &o) == status && !memcmp(&o, &before, sizeof o);
    holds = decide(i, &o) == status && !memcmp(&o, &before, sizeof o) && holds;
    test(what, check(i, &claim) == status && holds);
}

static void the_inputs(void)
{
    static const uint64_t heavy[N] = {1, TEZGUMI_TOTAL_LOAD - 1, 1}, wrapped[N] = {UINT64_MAX, 1, 1};
    static const uint32_t astray[N] = {0, 2, 0};
    input i = right_input;
    i.procs = 0;
    refused("no PE before", &i, TEZGUMI_BAD_INPUT);
    i.procs = TEZGUMI_PES + 1;
    refused("4,097 PEs before", &i, TEZGUMI_BAD_INPUT);
    i = right_input;
    i.pes = 0;
    refused("no PE after", &i, TEZGUMI_BAD_INPUT);
    i.pes = TEZGUMI_PES + 1;
    refused("4,097 PEs after", &i, TEZGUMI_BAD_INPUT);
    i = right_input;
    i.loads_len = N - 1;
    refused("a load less", &i, TEZGUMI_BAD_INPUT);
    i = right_input;
    i.bytes_len = N - 1;
    refused("a size less", &i, TEZGUMI_BAD_INPUT);
    i = right_input;
    i.places_len = N - 1;
    refused("a place less", &i, TEZGUMI_BAD_INPUT);
    i = right_input;
    i.places = astray;
    refused("a place that is no PE", &i, TEZGUMI_BAD_INPUT);
    i.loads = heavy;
    refused("and loads that add up to too much", &i, TEZGUMI_BAD_INPUT);
    i.places = places;
    refused("loads that add up to 2^63", &i, TEZGUMI_BAD_LOAD);
    i.loads = wrapped;
    refused("loads that add up to 2^64 and 1", &i, TEZGUMI_BAD_LOAD);
}

/* 32,768 of the greatest sizes of 32 bits and one more, which is given: 2^47 in all where it is 2^15. */
static void the_sizes(void)
{
    static uint64_t no_loads[FULL];
    static uint32_t sizes[FULL], stands[FULL];
    static uint32_t to[FULL];
    const tezgumi_run run = {FULL, 1, no_loads, sizes, stands};
    input i = {no_loads, sizes, stands, FULL, FULL, FULL, 1, P};
    uint64_t bottleneck = 7, moved = 7;
    uint32_t k;
    for (k = 0; k < FULL - 1; k++) sizes[k] = UINT32_MAX;
    sizes[FULL - 1] = 32768;
    same("sizes that add up to 2^47", tezgumi_plan_run(&run, P, to, &bottleneck, &moved), TEZGUMI_OK);
    test("stay where they are", bottleneck == 0 && moved == 0);
    sizes[FULL - 1]++;
    refused("a byte more", &i, TEZGUMI_BAD_INPUT);
    sizes[0] = 0;
    same("and without one of them", tezgumi_plan_run(&run, P, to, &bottleneck, &moved), TEZGUMI_OK);
}

/* One heavy element and a light one, on the greatest PE there may be: each limit but the number of elements is met. */
static void the_greatest_numbers(void)
{
    static const uint64_t all[2] = {TEZGUMI_TOTAL_LOAD - 5, 5}, half[1] = {UINT64_C(1) << 62};
    static const uint32_t sizes[2] = {UINT32_MAX, 1}, last[2] = {TEZGUMI_PES - 1, TEZGUMI_PES - 1};
    const tezgumi_run run = {2, TEZGUMI_PES, all, sizes, last}, one = {1, TEZGUMI_PES, half, sizes, last};
    tezgumi_decision d;
    tezgumi_decision_room(&d, 2, TEZGUMI_PES);
    same("loads that add up to 2^63 - 1", tezgumi_decide_run(&run, &d), TEZGUMI_OK);
    test("the heavy one is a block, and stays", d.bottleneck == TEZGUMI_TOTAL_LOAD - 5 && d.new_places[0] == TEZGUMI_PES - 1);
    test("the light one moves", d.moved == 1 && d.new_places[1] != TEZGUMI_PES - 1);
    same("and that is right", tezgumi_check_run(&run, &d), TEZGUMI_OK);
    d.bottleneck--;
    same("but no bottleneck less", tezgumi_check_run(&run, &d), TEZGUMI_HEAVY);
    tezgumi_decision_free(&d);
    tezgumi_decision_room(&d, 2, 1);
    same("all on one PE", tezgumi_decide_run(&run, &d), TEZGUMI_OK);
    test("all load and all bytes", d.bottleneck == TEZGUMI_TOTAL_LOAD && d.moved == UINT64_C(4294967296));
    same("is right", tezgumi_check_run(&run, &d), TEZGUMI_OK);
    tezgumi_decision_free(&d);
    tezgumi_decision_room(&d, 1, 2);
    same("one load of 2^62", tezgumi_decide_run(&one, &d), TEZGUMI_OK);
    test("is the bottleneck", d.bottleneck == half[0]);
    same("and that is right", tezgumi_check_run(&one, &d), TEZGUMI_OK);
    tezgumi_decision_free(&d);
}

static void the_room(void)
{
    int k;
    for (k = 0; k < 6; k++) {
        output o = empty_output(), p;
        size_t *const len[] = {&o.new_places_len, &o.cuts_len, &o.stops_len, &o.names_len, &o.block_prices_len, &o.pe_prices_len};
        static const char *const what[] = {"a place less to decide into", "a cut less to decide into", "a stop less to decide into",
            "a name less to decide into", "a price of a block less to decide into", "a price of a PE less to decide into"};
        --*len[k];
        p = o;
        test(what[k], decide(&right_input, &o) == TEZGUMI_BAD_INPUT && !memcmp(&o, &p, sizeof o));
    }
    {
        output o = empty_output(), p;
        o.new_places_len--;
        p = o;
        test("a place less to plan into", plan(&right_input, &o) == TEZGUMI_BAD_INPUT && !memcmp(&o, &p, sizeof o));
    }
}

/* Spoils a right decision, and expects the flaw. */
#define FLAW(flaw, spoil)                                     \
    do {                                                      \
        output o = decided();                                 \
        spoil;                                                \
        same(tezgumi_status_name(flaw), check(&right_input, &o), flaw); \
    } while (0)

static void the_flaws(void)
{
    FLAW(TEZGUMI_CUT_COUNT, o.cuts_len--);
    FLAW(TEZGUMI_CUT_START, o.cuts[0] = 1);
    FLAW(TEZGUMI_CUT_ORDER, o.cuts[1] = 4);
    FLAW(TEZGUMI_CUT_END, o.cuts[2] = 2);
    FLAW(TEZGUMI_HEAVY, o.cuts[1] = 1);
    FLAW(TEZGUMI_HEAVY, o.bottleneck = 1);
    FLAW(TEZGUMI_FENCE_COUNT, o.stops_count = 2);
    FLAW(TEZGUMI_FENCE_START, o.stops[0] = 1);
    FLAW(TEZGUMI_FENCE_ORDER, o.stops[1] = 3);
    FLAW(TEZGUMI_FENCE_END, o.stops[2] = 3);
    FLAW(TEZGUMI_FENCE_LIGHT, o.stops[1] = 0);
    FLAW(TEZGUMI_FENCE_LIGHT, o.bottleneck = 3);
    FLAW(TEZGUMI_ZERO_FLOOR, o.stops_count = 0);
    FLAW(TEZGUMI_NAME_COUNT, o.names_len--);
    FLAW(TEZGUMI_NAME_RANGE, o.names[0] = 2);
    FLAW(TEZGUMI_NAME_TWICE, o.names[0] = 0);
    FLAW(TEZGUMI_PRICE_COUNT, o.block_prices_len--);
    FLAW(TEZGUMI_PRICE_COUNT, o.pe_prices_len--);
    FLAW(TEZGUMI_PRICE_HIGH, o.block_prices[0]++);
    FLAW(TEZGUMI_PRICE_GAP, o.pe_prices[0]--);
    FLAW(TEZGUMI_PRICE_GAP, o.names[0] = 0; o.names[1] = 1);
    FLAW(TEZGUMI_MOVED_WRONG, o.moved++);
    FLAW(TEZGUMI_PLACES_WRONG, o.new_places[1] = 0);
    FLAW(TEZGUMI_PLACES_WRONG, o.new_places_len--);
    FLAW(TEZGUMI_CUT_COUNT, o.cuts_len = o.stops_count = o.names_len = o.new_places_len = o.block_prices_len = 0);
    FLAW(TEZGUMI_PRICE_HIGH, o.block_prices[1] = INT64_MAX; o.pe_prices[0] = INT64_MAX);
}

/* The greatest of everything that a dump holds. A block of 256 elements of the greatest load weighs 2^8 times as much. */
static void the_limits(void)
{
    enum { ELEMENTS = TEZGUMI_DUMP_ELEMENTS, PES = TEZGUMI_DUMP_PES };
    static uint64_t all_loads[ELEMENTS];
    static uint32_t all_bytes[ELEMENTS], all_places[ELEMENTS];
    const tezgumi_run run = {ELEMENTS, PES, all_loads, all_bytes, all_places};
    tezgumi_decision d;
    uint32_t i, right = 0;
    for (i = 0; i < ELEMENTS; i++) {
        all_loads[i] = TEZGUMI_DUMP_LOAD;
        all_bytes[i] = TEZGUMI_DUMP_STATE_BYTES;
        all_places[i] = PES - 1 - i / 256;
    }
    tezgumi_decision_room(&d, run.n, PES);
    same("the greatest run is decided", tezgumi_decide_run(&run, &d), TEZGUMI_OK);
    test("256 of the greatest loads", d.bottleneck == TEZGUMI_DUMP_LOAD * 256);
    same("nothing moves", (long long)d.moved, 0);
    for (i = 0; i < ELEMENTS; i++) right += d.new_places[i] == all_places[i];
    same("each element stays", right, ELEMENTS);
    same("the greatest decision is right", tezgumi_check_run(&run, &d), TEZGUMI_OK);
    tezgumi_decision_free(&d);
    tezgumi_decision_room(&d, run.n, 1);
    same("all on one PE", tezgumi_decide_run(&run, &d), TEZGUMI_OK);
    test("65,536 of the greatest loads", d.bottleneck == TEZGUMI_DUMP_LOAD * ELEMENTS);
    test("all but 256 of the greatest sizes move", d.moved == (uint64_t)TEZGUMI_DUMP_STATE_BYTES * (ELEMENTS - 256));
    same("and that is right", tezgumi_check_run(&run, &d), TEZGUMI_OK);
    tezgumi_decision_free(&d);
}

static void the_names(void)
{
    int32_t a, b, distinct = 1;
    for (a = -8; a <= 38; a++)
        for (b = -8; b < a; b++) distinct = distinct && strcmp(tezgumi_status_name(a), tezgumi_status_name(b));
    test("each status has a name of its own", distinct);
    test("another has none", !strcmp(tezgumi_status_name(39), "unknown status") && !strcmp(tezgumi_status_name(-9), "unknown status"));
    same("the library fits the header", tezgumi_abi(), TEZGUMI_ABI);
}

int main(void)
{
    the_example();
    the_inputs();
    the_sizes();
    the_greatest_numbers();
    the_room();
    the_flaws();
    the_limits();
    the_names();
    return failures != 0;
}
