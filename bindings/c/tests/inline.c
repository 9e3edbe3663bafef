/* The functions on runs and decisions: what they refuse before the library is asked, and lists without elements. The
 * exports look at what they are passed. Linked with -Wl,--wrap=tezgumi_plan,--wrap=tezgumi_decide,--wrap=tezgumi_check. */
#include "harness.h"
#include <tezgumi.h>

enum { N = 3, P = 2 };

/* Each pointer that was passed was aligned, and none was null. */
static int passed_rightly = 1;

static void look(const void *list, size_t size)
{
    passed_rightly = passed_rightly && list && (uintptr_t)list % size == 0;
}

static void look_at_run(const uint64_t *loads, const uint32_t *bytes, const uint32_t *places)
{
    look(loads, sizeof *loads);
    look(bytes, sizeof *bytes);
    look(places, sizeof *places);
}

extern __typeof__(tezgumi_plan) __real_tezgumi_plan, __wrap_tezgumi_plan;
extern __typeof__(tezgumi_decide) __real_tezgumi_decide, __wrap_tezgumi_decide;
extern __typeof__(tezgumi_check) __real_tezgumi_check, __wrap_tezgumi_check;

int32_t __wrap_tezgumi_plan(const uint64_t *l, size_t l_len, const uint32_t *b, size_t b_len, const uint32_t *p, size_t p_len,
    uint32_t procs, uint32_t pes, uint32_t *to, size_t to_len, uint64_t *bottleneck, uint64_t *moved)
{
    look_at_run(l, b, p);
    look(to, sizeof *to);
    look(bottleneck, sizeof *bottleneck);
    look(moved, sizeof *moved);
    return __real_tezgumi_plan(l, l_len, b, b_len, p, p_len, procs, pes, to, to_len, bottleneck, moved);
}

int32_t __wrap_tezgumi_decide(const uint64_t *l, size_t l_len, const uint32_t *b, size_t b_len, const uint32_t *p,
    size_t p_len, uint32_t procs, uint32_t pes, uint32_t *to, size_t to_len, uint64_t *bottleneck, uint64_t *moved,
    uint32_t *cuts, size_t cuts_len, uint32_t *stops, size_t stops_len, size_t *stops_count, uint32_t *names,
    size_t names_len, int64_t *u, size_t u_len, int64_t *v, size_t v_len)
{
    look_at_run(l, b, p);
    look(to, sizeof *to);
    look(cuts, sizeof *cuts);
    look(stops, sizeof *stops);
    look(names, sizeof *names);
    look(u, sizeof *u);
    look(v, sizeof *v);
    return __real_tezgumi_decide(l, l_len, b, b_len, p, p_len, procs, pes, to, to_len, bottleneck, moved, cuts, cuts_len,
        stops, stops_len, stops_count, names, names_len, u, u_len, v, v_len);
}

int32_t __wrap_tezgumi_check(const uint64_t *l, size_t l_len, const uint32_t *b, size_t b_len, const uint32_t *p,
    size_t p_len, uint32_t procs, uint32_t pes, const uint32_t *to, size_t to_len, uint64_t bottleneck, uint64_t moved,
    const uint32_t *cuts, size_t cuts_len, const uint32_t *stops, size_t stops_len, const uint32_t *names, size_t names_len,
    const int64_t *u, size_t u_len, const int64_t *v, size_t v_len)
{
    look_at_run(l, b, p);
    look(to, sizeof *to);
    look(cuts, sizeof *cuts);
    look(stops, sizeof *stops);
    look(names, sizeof *names);
    look(u, sizeof *u);
    look(v, sizeof *v);
    return __real_tezgumi_check(l, l_len, b, b_len, p, p_len, procs, pes, to, to_len, bottleneck, moved, cuts, cuts_len, stops,
        stops_len, names, names_len, u, u_len, v, v_len);
}

static const uint64_t loads[N] = {1, 1, 2};
static const uint32_t bytes[N] = {10, 9, 8}, places[N] = {0, 1, 0};
static const tezgumi_run right_run = {N, P, loads, bytes, places};

static void plans(void)
{
    uint32_t to[N + 1] = {7, 7, 7, 7};
    uint64_t bottleneck = 77, moved = 77;
    tezgumi_run run = right_run;
    same("planned", tezgumi_plan_run(&run, P, to, &bottleneck, &moved), TEZGUMI_OK);
    test("as by hand", to[0] == 1 && to[1] == 1 && to[2] == 0 && to[3] == 7 && bottleneck == 2 && moved == 10);
    same("planned with no numbers told", tezgumi_plan_run(&run, P, to, NULL, NULL), TEZGUMI_OK);
    same("planned for one PE", tezgumi_plan_run(&run, 1, to, &bottleneck, &moved), TEZGUMI_OK);
    test("all go to PE 0", to[0] == 0 && to[1] == 0 && to[2] == 0 && bottleneck == 4 && moved == 9);
    same("no PE", tezgumi_plan_run(&run, 0, to, NULL, NULL), TEZGUMI_BAD_INPUT);
    same("no run", tezgumi_plan_run(NULL, P, to, NULL, NULL), TEZGUMI_BAD_INPUT);
    same("no places to write", tezgumi_plan_run(&run, P, NULL, NULL, NULL), TEZGUMI_BAD_INPUT);
    same("too many PEs", tezgumi_plan_run(&run, TEZGUMI_PES + 1, to, NULL, NULL), TEZGUMI_BAD_INPUT);
    run.loads = NULL;
    same("no loads", tezgumi_plan_run(&run, P, to, NULL, NULL), TEZGUMI_BAD_INPUT);
    run = right_run;
    run.bytes = NULL;
    same("no sizes", tezgumi_plan_run(&run, P, to, NULL, NULL), TEZGUMI_BAD_INPUT);
    run = right_run;
    run.places = NULL;
    same("no places", tezgumi_plan_run(&run, P, to, NULL, NULL), TEZGUMI_BAD_INPUT);
}

static void overlaps(void)
{
    union {
        uint64_t words[8];
        uint32_t halves[16];
        unsigned char chars[64];
    } room;
    tezgumi_run run = right_run;
    memset(&room, 0, sizeof room);
    run.places = room.halves;
    same("in place", tezgumi_plan_run(&run, P, room.halves, NULL, NULL), TEZGUMI_BAD_INPUT);
    same("one element over the places", tezgumi_plan_run(&run, P, room.halves + 2, NULL, NULL), TEZGUMI_BAD_INPUT);
    same("right behind the places", tezgumi_plan_run(&run, P, room.halves + 3, NULL, NULL), TEZGUMI_OK);
    run.places = room.halves + 3;
    same("right before the places", tezgumi_plan_run(&run, P, room.halves, NULL, NULL), TEZGUMI_OK);
    same("one element over their begin", tezgumi_plan_run(&run, P, room.halves + 1, NULL, NULL), TEZGUMI_BAD_INPUT);
    run = right_run;
    run.loads = room.words;
    same("over the loads", tezgumi_plan_run(&run, P, room.halves + 5, NULL, NULL), TEZGUMI_BAD_INPUT);
    same("the bottleneck over the loads", tezgumi_plan_run(&run, P, room.halves + 8, room.words + 2, NULL), TEZGUMI_BAD_INPUT);
    same("both numbers in one place", tezgumi_plan_run(&run, P, room.halves + 8, room.words + 7, room.words + 7), TEZGUMI_BAD_INPUT);
    run = right_run;
    run.bytes = (const uint32_t *)(const void *)(room.chars + 1);
    same("sizes that are not aligned", tezgumi_plan_run(&run, P, room.halves + 8, NULL, NULL), TEZGUMI_BAD_INPUT);
}

static void decisions(void)
{
    tezgumi_run run = right_run;
    tezgumi_decision d, spoilt;
    same("no decision", tezgumi_decision_room(NULL, N, P), TEZGUMI_BAD_INPUT);
    same("room for no PE", tezgumi_decision_room(&d, N, 0), TEZGUMI_BAD_INPUT);
    same("room for 4,097 PEs", tezgumi_decision_room(&d, N, TEZGUMI_PES + 1), TEZGUMI_BAD_INPUT);
    test("nothing to free", d.room == NULL);
    same("decided into no room", tezgumi_decide_run(&run, &d), TEZGUMI_BAD_INPUT);
    tezgumi_decision_free(&d);
    tezgumi_decision_free(NULL);
    same("room", tezgumi_decision_room(&d, N, P), TEZGUMI_OK);
    same("decided", tezgumi_decide_run(&run, &d), TEZGUMI_OK);
    same("checked", tezgumi_check_run(&run, &d), TEZGUMI_OK);
    run.places = d.new_places;
    same("decided over its own places", tezgumi_decide_run(&run, &d), TEZGUMI_BAD_INPUT);
    run = right_run;
    run.n = N - 1;
    same("decided into room for more", tezgumi_decide_run(&run, &d), TEZGUMI_BAD_INPUT);
    same("checked on fewer elements", tezgumi_check_run(&run, &d), TEZGUMI_BAD_INPUT);
    run = right_run;
    same("no run to decide", tezgumi_decide_run(NULL, &d), TEZGUMI_BAD_INPUT);
    same("no run to check", tezgumi_check_run(NULL, &d), TEZGUMI_BAD_INPUT);
    same("no decision to check", tezgumi_check_run(&run, NULL), TEZGUMI_BAD_INPUT);
    spoilt = d;
    spoilt.stops_count = P + 2;
    same("more stops than room", tezgumi_check_run(&run, &spoilt), TEZGUMI_BAD_INPUT);
    spoilt = d;
    spoilt.names = spoilt.cuts;
    same("names over cuts", tezgumi_decide_run(&run, &spoilt), TEZGUMI_BAD_INPUT);
    spoilt = d;
    spoilt.pe_prices = NULL;
    same("no prices to write", tezgumi_decide_run(&run, &spoilt), TEZGUMI_BAD_INPUT);
    same("no prices to check", tezgumi_check_run(&run, &spoilt), TEZGUMI_BAD_INPUT);
    spoilt = d;
    spoilt.room = NULL;
    same("lists of the caller's own", tezgumi_check_run(&run, &spoilt), TEZGUMI_OK);
    tezgumi_decision_free(&d);
    test("all is null after free", d.room == NULL && d.cuts == NULL && d.pes == 0);
}

/* A list without elements may be misaligned, and so may the stops where there are none. */
static void misaligned_nothing(void)
{
    union {
        uint64_t words[2];
        unsigned char chars[16];
    } room;
    const void *odd = room.chars + 1;
    tezgumi_run none = {0, P, NULL, NULL, NULL};
    tezgumi_decision d;
    memset(&room, 0x5a, sizeof room);
    memcpy(&none.loads, &odd, sizeof odd);
    memcpy(&none.bytes, &odd, sizeof odd);
    memcpy(&none.places, &odd, sizeof odd);
    tezgumi_decision_room(&d, 0, P);
    memcpy(&d.new_places, &odd, sizeof odd);
    same("no element at an odd address is planned", tezgumi_plan_run(&none, P, d.new_places, NULL, NULL), TEZGUMI_OK);
    same("decided", tezgumi_decide_run(&none, &d), TEZGUMI_OK);
    memcpy(&d.stops, &odd, sizeof odd);
    same("and checked, with no stop at one", tezgumi_check_run(&none, &d), TEZGUMI_OK);
    test("nothing was written there", room.words[0] == UINT64_C(0x5a5a5a5a5a5a5a5a) && room.words[1] == room.words[0]);
    tezgumi_decision_free(&d);
}

/* Where the bottleneck is 0 there is no fence; and a list without elements may be null. */
static void nothing(void)
{
    static const uint64_t no_load[N] = {0, 0, 0};
    const tezgumi_run none = {0, P, NULL, NULL, NULL};
    tezgumi_run idle = right_run;
    tezgumi_decision d;
    uint64_t bottleneck = 77, moved = 77;
    same("no element is planned", tezgumi_plan_run(&none, P, NULL, &bottleneck, &moved), TEZGUMI_OK);
    test("nothing is heavy and nothing moves", bottleneck == 0 && moved == 0);
    tezgumi_decision_room(&d, 0, P);
    same("no element is decided", tezgumi_decide_run(&none, &d), TEZGUMI_OK);
    test("the names are 0 and 1", d.names[0] == 0 && d.names[1] == 1 && d.cuts[P] == 0 && d.stops_count == 0);
    same("no element is checked", tezgumi_check_run(&none, &d), TEZGUMI_OK);
    d.stops = NULL;
    same("no stop may be null", tezgumi_check_run(&none, &d), TEZGUMI_OK);
    tezgumi_decision_free(&d);
    idle.loads = no_load;
    tezgumi_decision_room(&d, N, P);
    same("elements with no load are decided", tezgumi_decide_run(&idle, &d), TEZGUMI_OK);
    test("there is no fence for 0", d.bottleneck == 0 && d.stops_count == 0);
    same("and that is right", tezgumi_check_run(&idle, &d), TEZGUMI_OK);
    tezgumi_decision_free(&d);
}

int main(void)
{
    plans();
    overlaps();
    decisions();
    nothing();
    misaligned_nothing();
    test("the exports were passed no null pointer and none that is misaligned", passed_rightly);
    return failures != 0;
}
