/* Loads in seconds: beside a search for the unit that goes down from the greatest power of two, and each refusal. Linked with
 * -lm. */
#include "harness.h"
#include <float.h>
#include <math.h>
#include <tezgumi.h>

enum { N = 7, TIMES = 2000, MANY = 131073 };

/* The least power of two, from 2^-1074 on, in which the greatest load counts less than 2^bits. */
static int exponent_of(const double *loads, size_t n, int bits)
{
    int exponent = 1023;
    double greatest = 0;
    size_t i;
    for (i = 0; i < n; i++) greatest = loads[i] > greatest ? loads[i] : greatest;
    while (exponent > -1074 && ldexp(greatest, 1 - exponent) < ldexp(1, bits)) exponent--;
    return exponent;
}

/* Whether the loads are counted so, into room for as many counts. */
static int are_scaled(const double *loads, size_t n, int bits, uint64_t *counts)
{
    double unit = 7;
    const int exponent = exponent_of(loads, n, bits);
    size_t i;
    if (tezgumi_scale_loads(loads, n, counts, &unit) != TEZGUMI_OK || unit != ldexp(1, exponent)) return 0;
    for (i = 0; i < n; i++)
        if ((double)counts[i] >= ldexp(1, bits) || (double)counts[i] != floor(ldexp(loads[i], -exponent))) return 0;
    return 1;
}

static int is_scaled(const double *loads, size_t n)
{
    uint64_t counts[N];
    return are_scaled(loads, n, 47, counts);
}

/* A double of any exponent from the least to the greatest, by a generator of 64 bits. */
static double next_load(uint64_t *state, int least, int range)
{
    *state = *state * UINT64_C(6364136223846793005) + UINT64_C(1442695040888963407);
    return ldexp((double)(*state >> 11), least + (int)((*state >> 5) % (uint64_t)range));
}

static void by_search(void)
{
    static const double rows[][N] = {
        {0, 0, 0, 0, 0, 0, 0}, {0, -0.0, 1, 1, 1, 1, 1}, {1.5, 0.25, 0, 0.125, 1e-30, 3, 2.5},
        {DBL_MAX, DBL_MIN, 4.9406564584124654e-324, 1, 0, 1e300, 1e308}, {4.9406564584124654e-324, 0, 0, 0, 0, 0, 1e-323},
        {140737488355327.0, 1, 2, 3, 4, 5, 0.5}, {140737488355328.0, 1, 2, 3, 4, 5, 0.5}, {0.1, 0.2, 0.3, 0.4, 0.5, 0.6, 0.7},
        {2.2250738585072014e-308, 2.2250738585072009e-308, 0, 1e-310, 1e-309, 3e-320, 1e-308},
    };
    uint64_t state = 1;
    size_t row;
    int time, i, right = 1;
    for (row = 0; row < sizeof rows / sizeof *rows; row++) test("loads by hand", is_scaled(rows[row], N));
    for (time = 0; time < TIMES; time++) {
        double loads[N];
        for (i = 0; i < N; i++) loads[i] = time % 2 ? next_load(&state, -1074, 1980) : next_load(&state, -60, 30);
        right = right && is_scaled(loads, (size_t)(time % N) + 1);
    }
    test("2,000 lists at random", right);
    test("no load", is_scaled(NULL, 0));
}

/* Of more than 65,536 loads a count has fewer bits, so that all of them add up to less than 2^63. */
static void many(void)
{
    static double loads[MANY];
    static uint64_t counts[MANY];
    uint64_t state = 1;
    size_t i;
    for (i = 0; i < MANY; i++) loads[i] = next_load(&state, -60, 30);
    loads[65535] = loads[65536] = loads[131071] = loads[131072] = ldexp(1, 40);
    test("65,536 loads", are_scaled(loads, 65536, 47, counts));
    test("65,537 loads", are_scaled(loads, 65537, 46, counts));
    test("131,072 loads", are_scaled(loads, 131072, 46, counts));
    test("131,073 loads", are_scaled(loads, MANY, 45, counts));
    for (i = 0; i < MANY; i++) loads[i] = 1;
    test("as many equal loads", are_scaled(loads, MANY, 45, counts) && counts[0] == UINT64_C(1) << 44);
}

static void refused(const char *what, const double *loads, size_t n, int32_t wanted)
{
    uint64_t counts[N] = {7, 7, 7, 7, 7, 7, 7};
    double unit = 7;
    size_t i;
    same(what, tezgumi_scale_loads(loads, n, counts, &unit), wanted);
    for (i = 0; i < N && counts[i] == 7; i++) { }
    test("nothing is written", i == N && unit == 7);
}

static void refusals(void)
{
    static const double infinite[] = {0, INFINITY, NAN, -1}, not_a_number[] = {1, NAN, INFINITY}, negative[] = {1, -1e-300, NAN},
        below_all[] = {-INFINITY, NAN};
    union {
        double loads[4];
        uint64_t counts[4];
        unsigned char chars[32];
    } room;
    uint64_t counts[2];
    const void *odd = room.chars + 1;
    const double *misaligned;
    double unit = 7;
    memset(&room, 0, sizeof room);
    memcpy(&misaligned, &odd, sizeof odd);
    refused("an infinite load", infinite, 4, TEZGUMI_INFINITE);
    refused("one that is no number", not_a_number, 3, TEZGUMI_NOT_A_NUMBER);
    refused("one below 0", negative, 3, TEZGUMI_NEGATIVE);
    refused("minus infinity", below_all, 2, TEZGUMI_NEGATIVE);
    refused("no list", NULL, 2, TEZGUMI_BAD_INPUT);
    refused("too many", infinite, (size_t)TEZGUMI_ELEMENTS + 1, TEZGUMI_BAD_INPUT);
    refused("a misaligned list", misaligned, 2, TEZGUMI_BAD_INPUT);
    same("no room", tezgumi_scale_loads(room.loads, 2, NULL, &unit), TEZGUMI_BAD_INPUT);
    same("over the loads", tezgumi_scale_loads(room.loads, 2, room.counts + 1, &unit), TEZGUMI_BAD_INPUT);
    same("the unit over the loads", tezgumi_scale_loads(room.loads, 2, counts, room.loads + 1), TEZGUMI_BAD_INPUT);
    same("right behind the loads, and no unit", tezgumi_scale_loads(room.loads, 2, room.counts + 2, NULL), TEZGUMI_OK);
    same("a count less than loads", tezgumi_scale(room.loads, 2, counts, 1, &unit), TEZGUMI_BAD_INPUT);
}

int main(void)
{
    by_search();
    many();
    refusals();
    return failures != 0;
}
