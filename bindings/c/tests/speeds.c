/* Divisions over PEs of unequal speed: worked examples, small chains beside all their divisions, each flaw of a forged claim, and each
 * refusal with what it leaves. */
#include "harness.h"
#include <tezgumi_speeds.h>

enum { N = 5, P = 2, MOST = 8 };

/* PE 1 is twice as fast as PE 0, but has 4 units of other work: 1 2 3 end at 6 / 1, and 4 4 at 12 / 2. */
static const uint64_t loads[N] = {1, 2, 3, 4, 4}, background[P] = {0, 4};
static const uint32_t speeds[P] = {1, 2};

typedef struct {
    uint64_t work;
    uint32_t speed, cuts[MOST + 1], stops[MOST + 1], idle;
    size_t stops_count, cuts_len, stops_len;
} output;

static output empty_output(uint32_t pes)
{
    output o;
    memset(&o, 0x5a, sizeof o);
    o.cuts_len = o.stops_len = pes + 1;
    return o;
}

static int32_t divide(const uint64_t *list, size_t n, const uint32_t *fast, const uint64_t *busy, size_t pes, size_t busy_len, output *o)
{
    return tezgumi_divide_speeds(list, n, fast, pes, busy, busy_len, &o->work, &o->speed, o->cuts, o->cuts_len, o->stops, o->stops_len,
        &o->stops_count, &o->idle);
}

static int32_t check(const output *o, uint32_t *place)
{
    return tezgumi_check_speeds(loads, N, speeds, P, background, P, o->work, o->speed, o->cuts, o->cuts_len, o->stops, o->stops_count,
        o->idle, place);
}

static int are(const uint32_t *found, size_t count, const uint32_t *wanted)
{
    return !memcmp(found, wanted, count * sizeof *found);
}

static void worked_examples(void)
{
    static const uint32_t cuts[] = {0, 3, 5}, stops[] = {0, 2, 4}, all_first[] = {0, 5, 5};
    static const uint64_t busy[P] = {0, 40};
    uint32_t place = 7;
    output o = empty_output(P);
    same("five loads are divided", divide(loads, N, speeds, background, P, P, &o), TEZGUMI_OK);
    test("by 6 / 1", o.work == 6 && o.speed == 1 && are(o.cuts, 3, cuts));
    test("as a fence proves", o.stops_count == 3 && are(o.stops, 3, stops) && o.idle == 0);
    test("which is right", check(&o, &place) == TEZGUMI_OK && place == 7);
    o = empty_output(P);
    same("and with 40 units on PE 1", divide(loads, N, speeds, busy, P, P, &o), TEZGUMI_OK);
    test("by 40 / 2, for which PE 1 is enough", o.work == 40 && o.speed == 2 && are(o.cuts, 3, all_first) && !o.stops_count && o.idle == 1);
}

/* The least greatest end time of all divisions, as *work / *speed. */
static void least_time(const uint64_t *list, size_t n, const uint32_t *fast, const uint64_t *busy, size_t pes, uint64_t *work, uint64_t *speed)
{
    size_t end;
    uint64_t sum = busy[0];
    *work = UINT32_MAX;
    *speed = 1;
    for (end = 0; end <= n; sum += end < n ? list[end] : 0, end++) {
        uint64_t rest = 0, rest_speed = 1;
        if (pes == 1 && end < n) continue;
        if (pes > 1) least_time(list + end, n - end, fast + 1, busy + 1, pes - 1, &rest, &rest_speed);
        if (rest * fast[0] < sum * rest_speed) {
            rest = sum;
            rest_speed = fast[0];
        }
        if (rest * *speed < *work * rest_speed) {
            *work = rest;
            *speed = rest_speed;
        }
    }
}

static void all_divisions(void)
{
    uint64_t seed = 1, list[7], busy[4], work, speed;
    uint32_t fast[4], place;
    int right = 1, accepted = 1;
    size_t turn, k;
    for (turn = 0; turn < 500; turn++) {
        const size_t n = turn % 8, pes = turn % 4 + 1;
        output o = empty_output((uint32_t)pes);
        for (k = 0; k < n; k++) list[k] = (seed = seed * 6364136223846793005u + 1442695040888963407u) >> 33 & 15;
        for (k = 0; k < pes; k++) {
            fast[k] = (uint32_t)((seed = seed * 6364136223846793005u + 1442695040888963407u) >> 33 & 7) + 1;
            busy[k] = turn % 3 ? seed >> 40 & 31 : 0;
        }
        least_time(list, n, fast, busy, pes, &work, &speed);
        right &= divide(list, n, fast, busy, pes, pes, &o) == TEZGUMI_OK && o.work * speed == work * o.speed;
        accepted &= tezgumi_check_speeds(list, n, fast, pes, busy, pes, o.work, o.speed, o.cuts, pes + 1, o.stops, o.stops_count, o.idle, &place)
            == TEZGUMI_OK;
    }
    test("500 small chains end as early as any of their divisions", right);
    test("and the checker accepts each", accepted);
}

static void forged(const char *what, output o, int32_t status, uint32_t where)
{
    uint32_t place = 7;
    same(what, check(&o, &place), status);
    same("at its place", place, where);
}

static void each_flaw(void)
{
    output right = empty_output(P), o;
    divide(loads, N, speeds, background, P, P, &right);
#define FORGED(what, change, status, where) o = right, change, forged(what, o, status, where)
    FORGED("a speed of 0", o.speed = 0, TEZGUMI_NO_SPEED, 0);
    FORGED("too few cuts", o.cuts_len = 2, TEZGUMI_CUT_COUNT, 0);
    FORGED("a first cut of 1", o.cuts[0] = 1, TEZGUMI_CUT_START, 0);
    FORGED("cuts that fall", o.cuts[1] = 6, TEZGUMI_CUT_ORDER, 0);
    FORGED("a last cut of 4", o.cuts[2] = 4, TEZGUMI_CUT_END, 0);
    FORGED("a block that is too long", o.cuts[1] = 4, TEZGUMI_LATE, 0);
    FORGED("the other one", o.cuts[1] = 2, TEZGUMI_LATE, 1);
    FORGED("an idle PE that is not there", (o.stops_count = 0, o.idle = 2), TEZGUMI_IDLE_RANGE, 0);
    FORGED("an idle PE that ends early", (o.stops_count = 0, o.idle = 1), TEZGUMI_IDLE_EARLY, 0);
    FORGED("too few stops", o.stops_count = 2, TEZGUMI_FENCE_COUNT, 0);
    FORGED("a first stop of 1", o.stops[0] = 1, TEZGUMI_FENCE_START, 0);
    FORGED("stops that fall", o.stops[1] = 5, TEZGUMI_FENCE_ORDER, 0);
    FORGED("a last stop behind the elements", o.stops[2] = 5, TEZGUMI_FENCE_END, 0);
    FORGED("a stop that is too near", o.stops[1] = 1, TEZGUMI_FENCE_EARLY, 1);
    FORGED("the next one", o.stops[1] = 4, TEZGUMI_FENCE_EARLY, 2);
    FORGED("a later time", o.work = 7, TEZGUMI_FENCE_EARLY, 1);
}

static void refused(const char *what, int32_t found, int32_t status, const output *o, const output *before)
{
    same(what, found, status);
    test("nothing was written", !memcmp(o, before, sizeof *o));
}

static void each_refusal(void)
{
    static const uint32_t stands[P] = {1, 0}, fast[P] = {1, TEZGUMI_SPEED + 1};
    static const uint64_t busy[P] = {0, TEZGUMI_BACKGROUND + 1}, half[P] = {UINT64_C(1) << 62, UINT64_C(1) << 62};
    output o = empty_output(P), before = o;
    uint32_t place = 7;
    refused("no PE", divide(loads, N, speeds, background, 0, 0, &o), TEZGUMI_BAD_INPUT, &o, &before);
    refused("less background than PEs", divide(loads, N, speeds, background, P, 1, &o), TEZGUMI_BAD_INPUT, &o, &before);
    refused("a speed of 0", divide(loads, N, stands, background, P, P, &o), TEZGUMI_BAD_SPEED, &o, &before);
    refused("a speed above a million", divide(loads, N, fast, background, P, P, &o), TEZGUMI_BAD_SPEED, &o, &before);
    refused("too much background", divide(loads, N, speeds, busy, P, P, &o), TEZGUMI_BAD_SPEED, &o, &before);
    refused("loads of 2^63", divide(half, P, speeds, background, P, P, &o), TEZGUMI_BAD_LOAD, &o, &before);
    o.cuts_len = before.cuts_len = P;
    refused("room for too few cuts", divide(loads, N, speeds, background, P, P, &o), TEZGUMI_BAD_INPUT, &o, &before);
    same("a check with a speed of 0", tezgumi_check_speeds(loads, N, stands, P, background, P, 6, 1, o.cuts, 3, o.stops, 3, 0, &place), TEZGUMI_BAD_SPEED);
    same("a check with no PE", tezgumi_check_speeds(loads, N, speeds, 0, background, 0, 6, 1, o.cuts, 3, o.stops, 3, 0, &place), TEZGUMI_BAD_INPUT);
    same("leaves the place", place, 7);
    test("the statuses have names", !strcmp(tezgumi_speed_status_name(TEZGUMI_LATE), "a PE ends after the time")
        && !strcmp(tezgumi_speed_status_name(TEZGUMI_OK), "ok"));
}

int main(void)
{
    worked_examples();
    all_divisions();
    each_flaw();
    each_refusal();
    return failures != 0;
}
