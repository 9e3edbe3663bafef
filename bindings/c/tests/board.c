/* A board: what each call refuses and in which order; rounds whose decisions are those of the planner for the same loads; and what is
 * read of them. */
#include "harness.h"

#include <string.h>
#include <tezgumi.h>
#include <tezgumi_board.h>

enum { N = 24, P = 4, ROUNDS = 6, BEHIND = 3 };

static struct tezgumi_board board;

/* Room for a dump, as it has to be and as it is. */
enum { MOST = 8192 };
static uint8_t wanted[MOST], found[MOST];
static size_t wanted_len;

/* Numbers that look random, the same each time. */
static uint32_t next_number(uint32_t below)
{
    static uint64_t state = 88172645463325252u;
    state ^= state << 13;
    state ^= state >> 7;
    state ^= state << 17;
    return (uint32_t)(state % below);
}

/* Every call on a closed handle says so, and writes nothing. */
static void closed(void)
{
    uint32_t round = 77, cuts[P + 1] = {77}, names[P] = {77}, sizes[N] = {77}, on[N] = {77}, pe = 77;
    uint64_t bottleneck = 77, moved = 77, units[N] = {77};
    size_t len = 77;
    same("close", tezgumi_board_close(&board), TEZGUMI_BOARD_CLOSED);
    same("report, of no PE", tezgumi_board_report(&board, 0, 1, 1, 1, 999), TEZGUMI_BOARD_CLOSED);
    same("finish", tezgumi_board_finish(&board, 0), TEZGUMI_BOARD_CLOSED);
    same("is complete", tezgumi_board_is_complete(&board), TEZGUMI_BOARD_CLOSED);
    same("all finished", tezgumi_board_all_finished(&board), TEZGUMI_BOARD_CLOSED);
    same("round", tezgumi_board_round(&board, &round), TEZGUMI_BOARD_CLOSED);
    same("decide", tezgumi_board_decide(&board, &round), TEZGUMI_BOARD_CLOSED);
    same("decision, in lists too short", tezgumi_board_decision(&board, 1, cuts, 0, names, 0, &bottleneck, &moved), TEZGUMI_BOARD_CLOSED);
    same("place", tezgumi_board_place(&board, 1, 0, &pe), TEZGUMI_BOARD_CLOSED);
    same("snapshot", tezgumi_board_snapshot(&board, 1, units, N, sizes, N, on, N), TEZGUMI_BOARD_CLOSED);
    same("dump", tezgumi_board_dump(&board, 1, found, 0, &len), TEZGUMI_BOARD_CLOSED);
    test("nothing was written", round == 77 && cuts[0] == 77 && names[0] == 77 && bottleneck == 77 && moved == 77 && pe == 77
        && units[0] == 77 && sizes[0] == 77 && on[0] == 77 && len == 77);
    test("it stays closed", board.at == NULL && !board.is_open);
}

static void openings(void)
{
    same("too many elements", tezgumi_board_open(&board, TEZGUMI_BOARD_ELEMENTS + 1, P), TEZGUMI_BOARD_BAD_INPUT);
    same("no PE", tezgumi_board_open(&board, N, 0), TEZGUMI_BOARD_BAD_INPUT);
    same("too many PEs", tezgumi_board_open(&board, N, TEZGUMI_BOARD_PES + 1), TEZGUMI_BOARD_BAD_INPUT);
    same("too great a tolerance", tezgumi_board_open_within(&board, N, P, TEZGUMI_BOARD_TOLERANCE + 1), TEZGUMI_BOARD_BAD_INPUT);
    test("it is still closed", !board.is_open);
    same("all that there may be", tezgumi_board_open_within(&board, TEZGUMI_BOARD_ELEMENTS, TEZGUMI_BOARD_PES, TEZGUMI_BOARD_TOLERANCE),
        TEZGUMI_BOARD_OK);
    same("close", tezgumi_board_close(&board), TEZGUMI_BOARD_OK);
    same("open", tezgumi_board_open(&board, N, P), TEZGUMI_BOARD_OK);
    test("it is open", board.is_open);
    same("open again", tezgumi_board_open(&board, N, P), TEZGUMI_BOARD_OPEN);
    same("open again, with no PE", tezgumi_board_open_within(&board, N, 0, 0), TEZGUMI_BOARD_OPEN);
}

/* Of several reasons the first is given, and what is refused changes nothing. */
static void refused_reports(void)
{
    uint32_t round = 0, i;
    same("no PE of the board, of no element", tezgumi_board_report(&board, N, 9, 1, TEZGUMI_BOARD_STATE_BYTES + 1, P), TEZGUMI_BOARD_BAD_INPUT);
    same("no PE at all", tezgumi_board_report(&board, N, 9, 1, 1, UINT32_MAX), TEZGUMI_BOARD_BAD_INPUT);
    same("a round past the last", tezgumi_board_report(&board, N, TEZGUMI_BOARD_ROUND + 1, 1, 1, 0), TEZGUMI_BOARD_BAD_INPUT);
    same("no element, in another round", tezgumi_board_report(&board, N, 9, 1, TEZGUMI_BOARD_STATE_BYTES + 1, 0), TEZGUMI_BOARD_STRANGER);
    same("another round, too large", tezgumi_board_report(&board, 0, 2, 1, TEZGUMI_BOARD_STATE_BYTES + 1, 0), TEZGUMI_BOARD_WRONG_ROUND);
    same("round 0", tezgumi_board_report(&board, 0, 0, 1, 1, 0), TEZGUMI_BOARD_WRONG_ROUND);
    same("too large", tezgumi_board_report(&board, 0, 1, 1, TEZGUMI_BOARD_STATE_BYTES + 1, 0), TEZGUMI_BOARD_TOO_LARGE);
    same("just not too large", tezgumi_board_report(&board, 0, 1, UINT64_MAX, TEZGUMI_BOARD_STATE_BYTES, P - 1), TEZGUMI_BOARD_OK);
    same("twice, too large", tezgumi_board_report(&board, 0, 1, 1, TEZGUMI_BOARD_STATE_BYTES + 1, 0), TEZGUMI_BOARD_TWICE);
    same("not complete", tezgumi_board_is_complete(&board), 0);
    same("not to be decided", tezgumi_board_decide(&board, &round), TEZGUMI_BOARD_NOT_NOW);
    test("no round was written", round == 0);
    same("the present round", tezgumi_board_round(&board, &round), TEZGUMI_BOARD_OK);
    same("is the first", round, 1);
    for (i = 1; i < N; i++) {
        if (tezgumi_board_report(&board, i, 1, i, 10 + i, i * P / N)) test("a report", 0);
    }
    same("complete", tezgumi_board_is_complete(&board), 1);
}

/* What the first round has. Units past the limit are not counted. */
static void first_round(void)
{
    uint64_t loads[N + BEHIND];
    uint32_t bytes[N + BEHIND], places[N + BEHIND], round = 0, i;
    int right = 1;
    same("not decided yet", tezgumi_board_snapshot(&board, 1, loads, N, bytes, N, places, N), TEZGUMI_BOARD_NOTHING);
    same("decided", tezgumi_board_decide(&board, &round), TEZGUMI_BOARD_OK);
    same("the first round", round, 1);
    same("the next one", tezgumi_board_round(&board, &round) == TEZGUMI_BOARD_OK ? round : 0, 2);
    same("which is not complete", tezgumi_board_is_complete(&board), 0);
    same("too few loads", tezgumi_board_snapshot(&board, 9, loads, N - 1, bytes, N, places, N), TEZGUMI_BOARD_BAD_INPUT);
    same("too few bytes", tezgumi_board_snapshot(&board, 9, loads, N, bytes, N - 1, places, N), TEZGUMI_BOARD_BAD_INPUT);
    same("too few places", tezgumi_board_snapshot(&board, 9, loads, N, bytes, N, places, N - 1), TEZGUMI_BOARD_BAD_INPUT);
    same("no round 0", tezgumi_board_snapshot(&board, 0, loads, N, bytes, N, places, N), TEZGUMI_BOARD_NOTHING);
    same("no round 2 yet", tezgumi_board_snapshot(&board, 2, loads, N, bytes, N, places, N), TEZGUMI_BOARD_NOTHING);
    same("no round past the last", tezgumi_board_snapshot(&board, UINT32_MAX, loads, N, bytes, N, places, N), TEZGUMI_BOARD_NOTHING);
    for (i = 0; i < N + BEHIND; i++) loads[i] = bytes[i] = places[i] = 77;
    same("round 1", tezgumi_board_snapshot(&board, 1, loads, N + BEHIND, bytes, N + 1, places, N + 2), TEZGUMI_BOARD_OK);
    right = loads[0] == TEZGUMI_BOARD_LOAD && bytes[0] == TEZGUMI_BOARD_STATE_BYTES && places[0] == P - 1;
    for (i = 1; i < N; i++) right = right && loads[i] == i && bytes[i] == 10 + i && places[i] == i * P / N;
    test("has what was reported", right);
    for (i = N, right = 1; i < N + BEHIND; i++) right = right && loads[i] == 77 && bytes[i] == 77 && places[i] == 77;
    test("and what lies behind is as it was", right);
}

/* The lists of a decision have to have room. */
static void refused_readings(void)
{
    uint32_t cuts[P + 1], names[P], pe = 77;
    uint64_t bottleneck = 77, moved = 77;
    size_t len = 77;
    same("too few cuts", tezgumi_board_decision(&board, 9, cuts, P, names, P, &bottleneck, &moved), TEZGUMI_BOARD_BAD_INPUT);
    same("too few names", tezgumi_board_decision(&board, 9, cuts, P + 1, names, P - 1, &bottleneck, &moved), TEZGUMI_BOARD_BAD_INPUT);
    same("not decided", tezgumi_board_decision(&board, 2, cuts, P + 1, names, P, &bottleneck, &moved), TEZGUMI_BOARD_NOTHING);
    same("round 0", tezgumi_board_decision(&board, 0, cuts, P + 1, names, P, &bottleneck, &moved), TEZGUMI_BOARD_NOTHING);
    same("no element, not decided", tezgumi_board_place(&board, 2, N, &pe), TEZGUMI_BOARD_STRANGER);
    same("no dump of what is not decided", tezgumi_board_dump(&board, 2, found, 0, &len), TEZGUMI_BOARD_NOTHING);
    same("no place that is not decided", tezgumi_board_place(&board, 2, N - 1, &pe), TEZGUMI_BOARD_NOTHING);
    same("nor one past the last round", tezgumi_board_place(&board, UINT32_MAX, 0, &pe), TEZGUMI_BOARD_NOTHING);
    test("nothing was written", bottleneck == 77 && moved == 77 && pe == 77 && len == 77);
}

/* The lists of a run, and what the planner decides for it. */
static uint64_t loads[N];
static uint32_t bytes[N], places[N];
static const tezgumi_run run = {N, P, loads, bytes, places};

/* Reports a round, in an order that is not that of the elements. */
static void report_round(uint32_t round)
{
    uint32_t i, k, right = 1;
    for (k = 0; k < N; k++) {
        i = (7 * k + round) % N;
        loads[i] = next_number(round % 2 ? 1000 : 7);
        bytes[i] = next_number(5000);
        right = right && tezgumi_board_is_complete(&board) == 0;
        right = right && tezgumi_board_report(&board, i, round, loads[i], bytes[i], places[i]) == TEZGUMI_BOARD_OK;
    }
    test("each element reports, and the round is complete with the last", right && tezgumi_board_is_complete(&board) == 1);
}

/* Appends a number to the dump as it has to be, the highest byte first. */
static void put(uint64_t number, int count)
{
    for (int i = count - 1; i >= 0; i--) wanted[wanted_len++] = (uint8_t)(number >> (8 * i));
}

/* The dump of what was reported, with this plan, or without one, as FORMATS.md has LBD2. */
static void make_dump(uint32_t round, const uint32_t *before, const tezgumi_decision *d)
{
    uint32_t i, moves = 0;
    wanted_len = 0;
    put(0x4c424432, 4);
    put(round, 4);
    put(P, 4);
    put(N, 4);
    for (i = 0; i < N; i++) {
        put(loads[i], 8);
        put(bytes[i], 4);
        put(before[i], 4);
    }
    put(d != NULL, 4);
    if (!d) return;
    put(P, 4);
    put(d->bottleneck, 8);
    for (i = 0; i <= P; i++) put(d->cuts[i], 4);
    put(d->stops_count != 0, 4);
    for (i = 0; i < d->stops_count; i++) put(d->stops[i], 4);
    for (i = 0; i < P; i++) put(d->names[i], 4);
    for (i = 0; i < P; i++) put((uint64_t)d->block_prices[i], 8);
    for (i = 0; i < P; i++) put((uint64_t)d->pe_prices[i], 8);
    put(d->moved, 8);
    for (i = 0; i < N; i++) moves += d->new_places[i] != before[i];
    put(moves, 4);
    for (i = 0; i < N; i++) {
        if (d->new_places[i] == before[i]) continue;
        put(i, 4);
        put(before[i], 4);
        put(d->new_places[i], 4);
    }
}

/* The dump of a round, into a list that is too short by one byte, and then into one that is longer. */
static void compare_dump(uint32_t round, const uint32_t *before, const tezgumi_decision *d)
{
    size_t len = 0;
    make_dump(round, before, d);
    memset(found, 77, MOST);
    same("too short a list for the dump", tezgumi_board_dump(&board, round, found, wanted_len - 1, &len), TEZGUMI_BOARD_LONGER);
    test("its length was written alone", len == wanted_len && found[0] == 77);
    len = 0;
    same("the dump", tezgumi_board_dump(&board, round, found, MOST, &len), TEZGUMI_BOARD_OK);
    test("is what was reported and decided", len == wanted_len && !memcmp(found, wanted, len));
    test("and what lies behind is as it was", found[len] == 77 && found[MOST - 1] == 77);
}

/* The decision of a round is this one, and its places are from now on those of the elements. */
static void compare(uint32_t round, const tezgumi_decision *d)
{
    uint32_t cuts[P + 1 + BEHIND], names[P + BEHIND], pe, i;
    uint64_t bottleneck = 0, moved = 0;
    int right = 1;
    for (i = 0; i < P + BEHIND; i++) cuts[i + 1] = names[i] = 77;
    same("the decision", tezgumi_board_decision(&board, round, cuts, P + 1 + BEHIND, names, P + BEHIND, &bottleneck, &moved), TEZGUMI_BOARD_OK);
    test("has the planner's bottleneck", bottleneck == d->bottleneck);
    test("and moves as many bytes", moved == d->moved);
    test("with the same cuts", !memcmp(cuts, d->cuts, (P + 1) * sizeof *cuts));
    test("and the same names", !memcmp(names, d->names, P * sizeof *names));
    for (i = 0; i < BEHIND; i++) right = right && cuts[P + 1 + i] == 77 && names[P + i] == 77;
    test("and what lies behind is as it was", right);
    for (i = 0, right = 1; i < N; i++) {
        right = right && tezgumi_board_place(&board, round, i, &pe) == TEZGUMI_BOARD_OK && pe == d->new_places[i];
        places[i] = d->new_places[i];
    }
    test("and each element has the same place", right);
}

static void rounds_of_least(void)
{
    tezgumi_decision d;
    uint32_t round, decided = 0, i;
    for (i = 0; i < N; i++) places[i] = i * P / N;
    if (tezgumi_decision_room(&d, N, P)) exit(1);
    for (round = 2; round < 2 + ROUNDS; round++) {
        report_round(round);
        same("decided", tezgumi_board_decide(&board, &decided), TEZGUMI_BOARD_OK);
        same("the round", decided, round);
        same("the planner", tezgumi_decide_run(&run, &d), TEZGUMI_OK);
        compare_dump(round, places, &d);
        compare(round, &d);
    }
    tezgumi_decision_free(&d);
}

static void rounds_within(uint32_t tolerance)
{
    tezgumi_refinement d;
    uint32_t round, decided = 0, kept = 0;
    same("a board within a tolerance", tezgumi_board_open_within(&board, N, P, tolerance), TEZGUMI_BOARD_OK);
    if (tezgumi_refinement_room(&d, N, P)) exit(1);
    for (round = 1; round <= ROUNDS; round++) {
        report_round(round);
        same("decided", tezgumi_board_decide(&board, &decided), TEZGUMI_BOARD_OK);
        same("the planner", tezgumi_refine_run(&run, tolerance, 0, &d), TEZGUMI_OK);
        compare_dump(round, places, d.near_present ? NULL : &d.decision);
        kept += d.near_present == 1;
        compare(round, &d.decision);
    }
    tezgumi_refinement_free(&d);
    printf("within %u thousandths %u of %d rounds kept near the present cuts\n", (unsigned)tolerance, (unsigned)kept, (int)ROUNDS);
    same("close", tezgumi_board_close(&board), TEZGUMI_BOARD_OK);
}

/* Elements finish, each once. */
static void finishing(void)
{
    uint32_t i;
    int right = 1;
    same("no element", tezgumi_board_finish(&board, N), TEZGUMI_BOARD_STRANGER);
    for (i = 0; i < N; i++) {
        right = right && tezgumi_board_all_finished(&board) == 0;
        right = right && tezgumi_board_finish(&board, (5 * i) % N) == TEZGUMI_BOARD_OK;
        right = right && tezgumi_board_finish(&board, (5 * i) % N) == TEZGUMI_BOARD_OK;
    }
    test("not all have finished before the last, each told twice", right);
    same("then all have", tezgumi_board_all_finished(&board), 1);
    same("close", tezgumi_board_close(&board), TEZGUMI_BOARD_OK);
    test("it is closed", !board.is_open);
}

/* Without an element every round is complete, and all have finished. */
static void empty(void)
{
    uint32_t round = 0, cuts[2] = {77, 77}, names[1] = {77};
    uint64_t bottleneck = 77, moved = 77;
    same("open", tezgumi_board_open(&board, 0, 1), TEZGUMI_BOARD_OK);
    same("complete", tezgumi_board_is_complete(&board), 1);
    same("all finished", tezgumi_board_all_finished(&board), 1);
    same("decided", tezgumi_board_decide(&board, &round), TEZGUMI_BOARD_OK);
    same("and again", tezgumi_board_decide(&board, &round), TEZGUMI_BOARD_OK);
    same("which is round 2", round, 2);
    same("its decision", tezgumi_board_decision(&board, 2, cuts, 2, names, 1, &bottleneck, &moved), TEZGUMI_BOARD_OK);
    test("is one block of nothing", cuts[0] == 0 && cuts[1] == 0 && names[0] == 0 && bottleneck == 0 && moved == 0);
    same("close", tezgumi_board_close(&board), TEZGUMI_BOARD_OK);
}

int main(void)
{
    closed();
    openings();
    refused_reports();
    first_round();
    refused_readings();
    rounds_of_least();
    finishing();
    closed();
    rounds_within(0);
    rounds_within(167);
    empty();
    return failures != 0;
}
