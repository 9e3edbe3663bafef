/* The numbers of the program heat, without chares: one loop over all cells of the rod.
 *
 *     cc -O2 -ffp-contract=off -o /tmp/heat examples/heat.c -lm
 *     /tmp/heat STRIPS STEPS E
 */
#include <inttypes.h>
#include <math.h>
#include <stdio.h>
#include <stdlib.h>
#include <string.h>

enum { CELLS = 16, PARTS = 64 };

static double next_cell(double left, double cell, double right)
{
    double heat = cell + 0.25 * ((left - cell) + (right - cell));
    for (int part = 0; cell >= 0.25 && part < PARTS; part++) heat += 0.00390625 * (1 - heat);
    return heat;
}

static uint64_t bits(double x)
{
    uint64_t number;
    memcpy(&number, &x, sizeof number);
    return number;
}

int main(int argc, char **argv)
{
    if (argc != 4) return 2;
    int n = CELLS * atoi(argv[1]), steps = atoi(argv[2]), done = 0;
    double small = ldexp(1, -atoi(argv[3])), residual = INFINITY;
    double *rod = calloc(n + 2, sizeof *rod), *next = calloc(n + 2, sizeof *next), *old;
    uint64_t checksum = 0xcbf29ce484222325;
    for (int i = 1; i <= CELLS; i++) rod[i] = 1;
    for (; done < steps && !(residual < small); done++) {
        residual = 0;
        for (int i = 1; i <= n; i++) {
            next[i] = next_cell(rod[i - 1], rod[i], rod[i + 1]);
            residual = fmax(residual, fabs(next[i] - rod[i]));
        }
        old = rod, rod = next, next = old;
    }
    for (int i = 1; i <= n; i++) checksum = (checksum ^ bits(rod[i])) * 0x100000001b3;
    printf("steps %d residual %016" PRIx64 " checksum %016" PRIx64 "\n", done, bits(residual), checksum);
}
