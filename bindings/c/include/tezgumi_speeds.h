/* Divisions over processing elements (PEs) of unequal speed, for C (C99) and C++ (C++11), beside those of tezgumi.h.
 *
 * PE p does speeds[p] work units in a unit of time, and has background[p] units of other work. Block p runs on it, so it ends at
 * (background[p] + load of block p) / speeds[p]. The division makes the greatest of these times as small as any division into
 * consecutive blocks lets it be, and carries a certificate of that: a fence, or a PE whose background takes so long by itself.
 *
 *     uint32_t cuts[P + 1], stops[P + 1], speed, idle;
 *     uint64_t work;
 *     size_t stops_count;
 *     int32_t status = tezgumi_divide_speeds(loads, n, speeds, P, background, P, &work, &speed, cuts, P + 1, stops, P + 1,
 *         &stops_count, &idle);
 *
 * These are exports, as those of tezgumi.h: what they answer is proved, lists are pointers and lengths in elements, memory is taken and
 * given back by malloc, realloc and free, and the caller owes what tezgumi.h says.
 */
#ifndef TEZGUMI_SPEEDS_H
#define TEZGUMI_SPEEDS_H

#include <tezgumi.h>

#ifdef __cplusplus
extern "C" {
#endif

#define TEZGUMI_SPEED 1000000u                         /* the greatest speed, from 1 */
#define TEZGUMI_BACKGROUND UINT64_C(140737488355328)   /* the greatest background, from 0: 2^47 */

/* What these calls answer beside the statuses of tezgumi.h. */
enum {
    TEZGUMI_BAD_SPEED = -13,    /* the lists are in order, and a speed is not 1 to TEZGUMI_SPEED or a background above TEZGUMI_BACKGROUND */
    TEZGUMI_NO_SPEED = 39,      /* the time has the speed 0 */
    TEZGUMI_LATE = 40,          /* a PE ends after the time */
    TEZGUMI_IDLE_RANGE = 41,    /* there are no stops, and idle is no PE */
    TEZGUMI_IDLE_EARLY = 42,    /* there are no stops, and the background of idle takes less than the time */
    TEZGUMI_FENCE_EARLY = 43    /* with the elements from one stop to the next, both included, the PE ends before the time */
};

/* The status in words. */
static inline const char *tezgumi_speed_status_name(int32_t status)
{
    switch (status) {
    case TEZGUMI_BAD_SPEED: return "a speed or a background is out of range";
    case TEZGUMI_NO_SPEED: return "the time has the speed 0";
    case TEZGUMI_LATE: return "a PE ends after the time";
    case TEZGUMI_IDLE_RANGE: return "idle is no PE";
    case TEZGUMI_IDLE_EARLY: return "the background of the idle PE takes less than the time";
    case TEZGUMI_FENCE_EARLY: return "with the elements between two stops a PE ends before the time";
    default: return tezgumi_status_name(status);
    }
}

/* Divides n loads into a block for each PE. The greatest end time is *work / *speed, the end of the first PE that ends then. Block p is
 * the elements cuts[p] .. cuts[p + 1] - 1. There are *stops_count stops: one more than PEs, or none, and then *idle is the first PE whose
 * background takes so long by itself. Otherwise, with the elements from each stop to the next, both included, the PE of the first stop's
 * number ends at that time or later, so in every division some PE does.
 *
 * TEZGUMI_OK; TEZGUMI_BAD_INPUT, where there is no PE or there are 2^32 - 1 or more, where there are 2^32 loads or more, where
 * background_len is not speeds_len, or where cuts_len or stops_len is not speeds_len + 1; TEZGUMI_BAD_SPEED; TEZGUMI_BAD_LOAD, where the
 * loads add up to more than TEZGUMI_TOTAL_LOAD; TEZGUMI_NO_MEMORY. After a refusal nothing is written. */
int32_t tezgumi_divide_speeds(
    const uint64_t *loads, size_t loads_len, const uint32_t *speeds, size_t speeds_len,
    const uint64_t *background, size_t background_len, uint64_t *work, uint32_t *speed,
    uint32_t *cuts, size_t cuts_len, uint32_t *stops, size_t stops_len, size_t *stops_count, uint32_t *idle);

/* Checks such a division, whoever made it: the loads and the claim's numbers and lengths may be any.
 *
 * TEZGUMI_OK exactly where work / speed is the greatest end time of these cuts, and the stops, or where there are none the PE idle,
 * prove that no division has a lower one. Above 0: the first flaw, looked for in this order: 39, 1 to 4, 40, then 41 and 42 where there
 * are no stops, or else 6 to 9 and 43. *place is then the PE (40) or the stop, from 1, (43) that it names, or 0. TEZGUMI_BAD_INPUT,
 * where there is no PE or there are 2^32 - 1 or more, or where background_len is not speeds_len; TEZGUMI_BAD_SPEED; TEZGUMI_NO_MEMORY.
 * *place is written after a flaw alone. */
int32_t tezgumi_check_speeds(
    const uint64_t *loads, size_t loads_len, const uint32_t *speeds, size_t speeds_len,
    const uint64_t *background, size_t background_len, uint64_t work, uint32_t speed,
    const uint32_t *cuts, size_t cuts_len, const uint32_t *stops, size_t stops_len, uint32_t idle, uint32_t *place);

#ifdef __cplusplus
}
#endif

#endif
