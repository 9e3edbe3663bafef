/* Why calls are refused: each rule, by the call that is refused and by the one that says why. */
#include "harness.h"
#include <math.h>
#include <tezgumi_refusal.h>

enum { N = 3, P = 2 };
static uint64_t loads[N];
static uint32_t bytes[N], places[N], new_places[N];
static tezgumi_run run;

/* Three elements on two PEs, in order. */
static void in_order(void)
{
    static const uint64_t right_loads[N] = {1, 1, 2};
    static const uint32_t right_bytes[N] = {10, 9, 8}, right_places[N] = {0, 1, 0};
    memcpy(loads, right_loads, sizeof loads);
    memcpy(bytes, right_bytes, sizeof bytes);
    memcpy(places, right_places, sizeof places);
    run.n = N;
    run.procs = P;
    run.loads = loads;
    run.bytes = bytes;
    run.places = places;
}

/* What is said of a refusal. */
static void said(const char *what, const tezgumi_refusal *why, int32_t rule, const char *list, const char *wanted)
{
    char text[TEZGUMI_REFUSAL_TEXT];
    same(what, why->rule, rule);
    test("of this list", !strcmp(why->list, list));
    tezgumi_refusal_text(why, text, sizeof text);
    if (strcmp(text, wanted)) printf("found \"%s\": ", text);
    test("in words", !strcmp(text, wanted));
}

/* A plan is refused by this status, and for this reason. */
static void planned(const char *what, uint32_t pes, int32_t status, int32_t rule, const char *list, const char *wanted)
{
    tezgumi_refusal why;
    same(what, tezgumi_plan_run(&run, pes, new_places, NULL, NULL), status);
    same("which is said", tezgumi_why_plan(&run, pes, new_places, NULL, NULL, &why), status);
    said(what, &why, rule, list, wanted);
    in_order();
}

static void the_rules_of_a_run(void)
{
    in_order();
    planned("a run in order", P, TEZGUMI_OK, TEZGUMI_RULE_NONE, "", "nothing is refused");
    planned("no PE", 0, TEZGUMI_BAD_INPUT, TEZGUMI_RULE_NO_PES, "pes", "pes is 0, and has to be 1 to 4096");
    planned("too many PEs", 4097, TEZGUMI_BAD_INPUT, TEZGUMI_RULE_MANY_PES, "pes", "pes is 4097, and has to be at most 4096");
    run.procs = 0;
    planned("no PE before", P, TEZGUMI_BAD_INPUT, TEZGUMI_RULE_NO_PROCS, "procs", "procs is 0, and has to be 1 to 4096");
    run.procs = 4097;
    planned("too many before", P, TEZGUMI_BAD_INPUT, TEZGUMI_RULE_MANY_PROCS, "procs", "procs is 4097, and has to be at most 4096");
    places[1] = 2;
    places[2] = 7;
    planned("a place that is no PE", P, TEZGUMI_BAD_INPUT, TEZGUMI_RULE_ASTRAY, "places", "places[1] is 2, and has to be at most 1");
    loads[0] = loads[1] = UINT64_C(1) << 62;
    loads[2] = UINT64_MAX;
    planned("loads of 2^63", P, TEZGUMI_BAD_LOAD, TEZGUMI_RULE_MANY_UNITS, "loads",
        "loads[1] is 4611686018427387904, with which they add up to more than 9223372036854775807");
    run.places = NULL;
    planned("no places", P, TEZGUMI_BAD_INPUT, TEZGUMI_RULE_NULL, "places", "places is null");
    run.bytes = (const uint32_t *)(uintptr_t)((uintptr_t)bytes + 1);
    planned("a misaligned list", P, TEZGUMI_BAD_INPUT, TEZGUMI_RULE_ALIGNED, "bytes", "bytes is not aligned to its entries");
    run.places = new_places;
    planned("places that are written", P, TEZGUMI_BAD_INPUT, TEZGUMI_RULE_OVERLAP, "new_places", "new_places overlaps places");
}

/* Packed sizes of 4 GiB less a byte, of which 32,769 are above 2^47 bytes. */
static void too_many_bytes(void)
{
    enum { MANY = 32769 };
    static uint64_t no_loads[MANY];
    static uint32_t sizes[MANY], no_places[MANY], to[MANY];
    const tezgumi_run many = {MANY, 1, no_loads, sizes, no_places};
    tezgumi_refusal why;
    memset(sizes, 0xff, sizeof sizes);
    same("sizes of more than 2^47 bytes", tezgumi_plan_run(&many, 1, to, NULL, NULL), TEZGUMI_BAD_INPUT);
    same("which is said", tezgumi_why_plan(&many, 1, to, NULL, NULL, &why), TEZGUMI_BAD_INPUT);
    said("of the element", &why, TEZGUMI_RULE_MANY_BYTES, "bytes", "bytes[32768] is 4294967295, with which they add up to more than 140737488355328");
}

/* The export on lists of other lengths. */
static void the_export(void)
{
    uint32_t entry = 7;
    in_order();
    same("in order", tezgumi_run_refusal(loads, N, bytes, N, places, N, P, P, 1, &entry), TEZGUMI_RULE_NONE);
    test("which writes nothing", entry == 7);
    same("fewer sizes", tezgumi_run_refusal(loads, N, bytes, N - 1, places, N, P, P, 1, &entry), TEZGUMI_RULE_BYTES_COUNT);
    test("which names no entry", entry == 0);
    same("more places", tezgumi_run_refusal(loads, N - 1, bytes, N - 1, places, N, P, P, 0, &entry), TEZGUMI_RULE_PLACES_COUNT);
    places[2] = 9;
    same("a place", tezgumi_run_refusal(loads, N, bytes, N, places, N, P, P, 0, &entry), TEZGUMI_RULE_ASTRAY);
    test("the last", entry == 2);
}

/* A decision within a tolerance is refused by this status, and for this reason; in any order the same. */
static void refined(const char *what, tezgumi_reordering *d, uint32_t tolerance, int32_t status, int32_t rule, const char *list, const char *wanted)
{
    tezgumi_refusal why;
    same(what, tezgumi_refine_run(&run, tolerance, 0, &d->refinement), status);
    same("which is said", tezgumi_why_refine(&run, tolerance, 0, &d->refinement, &why), status);
    said(what, &why, rule, list, wanted);
    same("in any order", tezgumi_reorder_run(&run, tolerance, d), status);
    same("which is said", tezgumi_why_reorder(&run, tolerance, d, &why), status);
    said(what, &why, rule, list, wanted);
    in_order();
}

static void the_rules_of_a_tolerance(void)
{
    tezgumi_reordering d;
    tezgumi_refusal why;
    uint32_t *kept;
    in_order();
    if (tezgumi_reordering_room(&d, N, P) != TEZGUMI_OK) {
        test("room", 0);
        return;
    }
    refined("in order", &d, 20, TEZGUMI_OK, TEZGUMI_RULE_NONE, "", "nothing is refused");
    refined("a tolerance", &d, 1001, TEZGUMI_BAD_TOLERANCE, TEZGUMI_RULE_TOLERANCE, "tolerance", "tolerance is 1001, and has to be at most 1000");
    run.procs = 257;
    refined("257 PEs before", &d, 20, TEZGUMI_TOO_LARGE, TEZGUMI_RULE_TOLERANCE_PROCS, "procs", "procs is 257, and has to be at most 256 within a tolerance");
    loads[2] = UINT64_C(1) << 47;
    refined("a load", &d, 20, TEZGUMI_TOO_LARGE, TEZGUMI_RULE_TOLERANCE_LOAD, "loads",
        "loads[2] is 140737488355328, and has to be at most 140737488355327 within a tolerance");
    bytes[0] = 1048577;
    refined("a size", &d, 20, TEZGUMI_TOO_LARGE, TEZGUMI_RULE_TOLERANCE_BYTES, "bytes",
        "bytes[0] is 1048577, and has to be at most 1048576 within a tolerance");
    places[0] = 5;
    refined("a place", &d, 20, TEZGUMI_BAD_INPUT, TEZGUMI_RULE_ASTRAY, "places", "places[0] is 5, and has to be at most 1");
    run.n = 2;
    refined("fewer elements", &d, 20, TEZGUMI_BAD_INPUT, TEZGUMI_RULE_ELEMENTS, "n", "n of the decision is 3, and the run has 2 elements");
    kept = d.refinement.present;
    d.refinement.present = d.refinement.least_cuts;
    refined("lists that overlap", &d, 20, TEZGUMI_BAD_INPUT, TEZGUMI_RULE_OVERLAP, "present", "present overlaps least_cuts");
    d.refinement.present = kept;
    kept = d.level_places;
    d.level_places = NULL;
    same("no levels", tezgumi_reorder_run(&run, 20, &d), TEZGUMI_BAD_INPUT);
    same("which is said", tezgumi_why_reorder(&run, 20, &d, &why), TEZGUMI_BAD_INPUT);
    said("of the list", &why, TEZGUMI_RULE_NULL, "level_places", "level_places is null");
    d.level_places = kept;
    same("no run", tezgumi_why_reorder(NULL, 20, &d, &why), TEZGUMI_BAD_INPUT);
    said("of the run", &why, TEZGUMI_RULE_NULL, "run", "run is null");
    same("no decision", tezgumi_why_refine(&run, 20, 1, NULL, &why), TEZGUMI_BAD_INPUT);
    said("of the decision", &why, TEZGUMI_RULE_NULL, "decision", "decision is null");
    tezgumi_reordering_free(&d);
}

static void decisions_and_claims(void)
{
    tezgumi_decision d;
    tezgumi_refusal why;
    char short_text[10];
    in_order();
    if (tezgumi_decision_room(&d, N, P) != TEZGUMI_OK) {
        test("room", 0);
        return;
    }
    same("a decision", tezgumi_decide_run(&run, &d), TEZGUMI_OK);
    same("of which nothing is said", tezgumi_why_decide(&run, &d, &why), TEZGUMI_OK);
    same("nor of a check", tezgumi_why_check(&run, &d, &why), TEZGUMI_OK);
    d.stops_count = 4;
    same("too many stops", tezgumi_check_run(&run, &d), TEZGUMI_BAD_INPUT);
    same("which is said", tezgumi_why_check(&run, &d, &why), TEZGUMI_BAD_INPUT);
    said("of their number", &why, TEZGUMI_RULE_COUNT, "stops_count", "stops_count is 4, and there is room for 3");
    d.pes = 0;
    same("no PE", tezgumi_decide_run(&run, &d), TEZGUMI_BAD_INPUT);
    same("which is said", tezgumi_why_decide(&run, &d, &why), TEZGUMI_BAD_INPUT);
    said("of the number", &why, TEZGUMI_RULE_NO_PES, "pes", "pes is 0, and has to be 1 to 4096");
    test("a text is cut off where there is no room", !strcmp(tezgumi_refusal_text(&why, short_text, sizeof short_text), "pes is 0,"));
    test("and is empty without a text", !strcmp(tezgumi_refusal_text(&why, NULL, 9), ""));
    d.pes = P;
    tezgumi_decision_free(&d);
}

/* The four elements of docs/BINDINGS.md on three PEs, together or not. */
enum { FOUR = 4, THREE = 3 };
static uint64_t four_loads[FOUR];
static uint32_t four_places[FOUR];
static void four_in_order(int together)
{
    static const uint64_t right_loads[FOUR] = {6, 2, 1, 2};
    static const uint32_t sizes[FOUR] = {2, 37, 15, 6}, right_places[FOUR] = {0, 0, 1, 2}, apart[FOUR] = {0, 1, 0, 2};
    memcpy(four_loads, right_loads, sizeof four_loads);
    memcpy(four_places, together ? right_places : apart, sizeof four_places);
    run.n = FOUR;
    run.procs = THREE;
    run.loads = four_loads;
    run.bytes = sizes;
    run.places = four_places;
}

/* A check of a decision within a tolerance, or in any order: it is refused by this status, and for this reason. */
static void checked(const char *what, const tezgumi_reordering *d, int any, int32_t status, int32_t rule, const char *list, const char *wanted)
{
    const tezgumi_refinement *f = d ? &d->refinement : NULL;
    tezgumi_refusal why;
    same(what, any ? tezgumi_check_reordering(&run, d, NULL) : tezgumi_check_refinement(&run, f, NULL), status);
    same("which is said", any ? tezgumi_why_check_reordering(&run, d, NULL, &why) : tezgumi_why_check_refinement(&run, f, NULL, &why), status);
    said(what, &why, rule, list, wanted);
}

/* Claims of three kinds: the plan, cuts near the present ones, and the fewest bytes of all. */
static void claim_of(tezgumi_reordering *d, int kind)
{
    uint32_t numbers;
    tezgumi_refusal why;
    four_in_order(kind > 0);
    same("decided", kind == 2 ? tezgumi_reorder_run(&run, 300, d) : tezgumi_refine_run(&run, 300, 0, &d->refinement), TEZGUMI_OK);
    test("of this kind", kind == 2 ? d->reordered == 1 : d->refinement.near_present == (uint32_t)kind);
    checked("right", d, kind == 2, TEZGUMI_OK, TEZGUMI_RULE_NONE, "", "nothing is refused");
    d->refinement.tolerance = 1001;
    if (kind > 0) checked("a tolerance", d, kind == 2, TEZGUMI_BAD_TOLERANCE, TEZGUMI_RULE_TOLERANCE, "tolerance",
        "tolerance is 1001, and has to be at most 1000");
    d->refinement.tolerance = 300;
    four_loads[1] = UINT64_C(1) << 47;
    if (kind > 0) checked("a load", d, kind == 2, TEZGUMI_TOO_LARGE, TEZGUMI_RULE_TOLERANCE_LOAD, "loads",
        "loads[1] is 140737488355328, and has to be at most 140737488355327 within a tolerance");
    four_places[2] = 3;
    checked("a place", d, kind == 2, TEZGUMI_BAD_INPUT, TEZGUMI_RULE_ASTRAY, "places", "places[2] is 3, and has to be at most 2");
    four_in_order(kind > 0);
    numbers = (uint32_t)d->refinement.decision.stops_count;
    d->refinement.decision.stops_count = 5;
    checked("stops", d, kind == 2, TEZGUMI_BAD_INPUT, TEZGUMI_RULE_COUNT, "stops_count", "stops_count is 5, and there is room for 4");
    d->refinement.decision.stops_count = numbers;
    same("numbers that are written over cuts", tezgumi_why_check_refinement(&run, &d->refinement, d->refinement.decision.cuts, &why), TEZGUMI_BAD_INPUT);
    said("of them", &why, TEZGUMI_RULE_OVERLAP, "at", "at overlaps cuts");
    same("and in any order", tezgumi_why_check_reordering(&run, d, d->refinement.decision.cuts, &why), TEZGUMI_BAD_INPUT);
    said("of them", &why, TEZGUMI_RULE_OVERLAP, "at", "at overlaps cuts");
}

static void claims_within_a_tolerance(void)
{
    tezgumi_reordering d;
    size_t *kept;
    int kind;
    if (tezgumi_reordering_room(&d, FOUR, THREE) != TEZGUMI_OK) {
        test("room", 0);
        return;
    }
    for (kind = 0; kind < 3; kind++) claim_of(&d, kind);
    kept = d.level_starts;
    d.level_starts = NULL;
    checked("no levels", &d, 1, TEZGUMI_BAD_INPUT, TEZGUMI_RULE_NULL, "level_starts", "level_starts is null");
    d.level_starts = kept;
    d.levels_room = 24;
    d.levels_count = 25;
    checked("too many levels", &d, 1, TEZGUMI_BAD_INPUT, TEZGUMI_RULE_COUNT, "levels_count", "levels_count is 25, and there is room for 24");
    d.reordered = 0;
    d.refinement.keep_order = 2;
    checked("kept order", &d, 1, TEZGUMI_BAD_INPUT, TEZGUMI_RULE_KEEP_ORDER, "keep_order", "keep_order is 2, and has to be 0 in any order");
    d.refinement.keep_order = 0;
    d.refinement.near_present = 1;
    d.refinement.steps_room = 2;
    d.refinement.steps_count = 3;
    for (kind = 1; kind < 3; kind++)
        checked("too many steps", &d, kind == 2, TEZGUMI_BAD_INPUT, TEZGUMI_RULE_COUNT, "steps_count", "steps_count is 3, and there is room for 2");
    tezgumi_reordering_free(&d);
    for (kind = 1; kind < 3; kind++) {
        checked("no room", &d, kind == 2, TEZGUMI_BAD_INPUT, TEZGUMI_RULE_ELEMENTS, "n", "n of the decision is 0, and the run has 4 elements");
        checked("no decision", NULL, kind == 2, TEZGUMI_BAD_INPUT, TEZGUMI_RULE_NULL, "decision", "decision is null");
    }
}

/* Measured loads are refused by this status, and for this reason. */
static void scaled(const char *what, const double *measured, size_t n, uint64_t *to, int32_t status, int32_t rule, const char *list, const char *wanted)
{
    tezgumi_refusal why;
    double unit;
    same(what, tezgumi_scale_loads(measured, n, to, &unit), status);
    same("which is said", tezgumi_why_scale(measured, n, to, &unit, &why), status);
    said(what, &why, rule, list, wanted);
}

static void measured_loads(void)
{
    double measured[N] = {0.5, -0.0, 2};
    uint64_t counts[N];
    scaled("in order", measured, N, counts, TEZGUMI_OK, TEZGUMI_RULE_NONE, "", "nothing is refused");
    measured[2] = HUGE_VAL;
    scaled("infinite", measured, N, counts, TEZGUMI_INFINITE, TEZGUMI_RULE_INFINITE, "loads", "loads[2] is infinite");
    measured[1] = -HUGE_VAL;
    scaled("below 0", measured, N, counts, TEZGUMI_NEGATIVE, TEZGUMI_RULE_NEGATIVE, "loads", "loads[1] is below 0");
    measured[0] = measured[1] + measured[2];
    scaled("not a number", measured, N, counts, TEZGUMI_NOT_A_NUMBER, TEZGUMI_RULE_NOT_A_NUMBER, "loads", "loads[0] is not a number");
    scaled("no room", measured, N, NULL, TEZGUMI_BAD_INPUT, TEZGUMI_RULE_NULL, "scaled", "scaled is null");
    scaled("too many", measured, (size_t)TEZGUMI_ELEMENTS + 1, counts, TEZGUMI_BAD_INPUT, TEZGUMI_RULE_MANY_ELEMENTS, "n",
        "n is 4294967296, and has to be at most 4294967295");
    scaled("over each other", (double *)(void *)counts, N, counts, TEZGUMI_BAD_INPUT, TEZGUMI_RULE_OVERLAP, "scaled", "scaled overlaps loads");
    scaled("none", NULL, 0, NULL, TEZGUMI_OK, TEZGUMI_RULE_NONE, "", "nothing is refused");
}

int main(void)
{
    the_rules_of_a_run();
    too_many_bytes();
    the_export();
    the_rules_of_a_tolerance();
    decisions_and_claims();
    claims_within_a_tolerance();
    measured_loads();
    return failures != 0;
}
