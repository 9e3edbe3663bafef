#include "cells.h"
#include <stdio.h>

void *room_for(size_t count, size_t size)
{
    void *room = calloc(count + 1, size);
    if (room) return room;
    fprintf(stderr, "out of memory\n");
    MPI_Abort(MPI_COMM_WORLD, 1);
    return NULL;
}

void cells_open(cells *c, uint32_t n, uint32_t words, int rank, int ranks)
{
    uint32_t i, k;
    c->n = n;
    c->words = words;
    c->rows = (double **)room_for(n, sizeof *c->rows);
    c->loads = (uint64_t *)room_for(n, sizeof *c->loads);
    for (i = 0; i < n; i++) {
        if ((uint64_t)i * (uint64_t)ranks / n != (uint64_t)rank) continue;
        c->rows[i] = (double *)room_for(words, sizeof **c->rows);
        for (k = 0; k < words; k++) c->rows[i][k] = 0.1 + 0.8 * ((i * 131u + k * 17u) % 997u) / 997.0;
    }
}

void cells_close(cells *c)
{
    uint32_t i;
    for (i = 0; i < c->n; i++) free(c->rows[i]);
    free(c->rows);
    free(c->loads);
}

uint32_t cells_bytes(const cells *c)
{
    return c->words * (uint32_t)sizeof **c->rows;
}

int cells_pack(void *app, uint32_t i, void *to, uint32_t bytes)
{
    memcpy(to, ((cells *)app)->rows[i], bytes);
    return 0;
}

int cells_unpack(void *app, uint32_t i, const void *from, uint32_t bytes)
{
    cells *c = (cells *)app;
    c->rows[i] = (double *)malloc(bytes + 1);
    if (!c->rows[i]) return 1;
    memcpy(c->rows[i], from, bytes);
    return 0;
}

void cells_drop(void *app, uint32_t i)
{
    cells *c = (cells *)app;
    free(c->rows[i]);
    c->rows[i] = NULL;
}

uint32_t cells_here(const cells *c, tezgumi_mpi_element *mine)
{
    uint32_t i, count = 0;
    for (i = 0; i < c->n; i++) {
        if (!c->rows[i]) continue;
        mine[count].index = i;
        mine[count].load = c->loads[i];
        mine[count++].bytes = cells_bytes(c);
    }
    return count;
}

void cells_work(cells *c, uint32_t i, double left, double right, uint32_t sweeps)
{
    double *x = c->rows[i];
    uint32_t k, sweep;
    for (k = 0; k < c->words; k++) x[k] = 0.98 * x[k] + 0.01 * (left + right);
    for (sweep = 0; sweep < sweeps; sweep++)
        for (k = 0; k < c->words; k++) x[k] = 3.9 * x[k] * (1.0 - x[k]) * 0.999 + 0.0001;
    c->loads[i] += sweeps;
}

double cells_mean(const cells *c, uint32_t i)
{
    double sum = 0;
    uint32_t k;
    for (k = 0; k < c->words; k++) sum += c->rows[i][k];
    return sum / c->words;
}

uint64_t cells_checksum(const cells *c)
{
    uint64_t sum = 0, bits;
    uint32_t i, k;
    for (i = 0; i < c->n; i++) {
        for (k = 0; c->rows[i] && k < c->words; k++) {
            memcpy(&bits, &c->rows[i][k], sizeof bits);
            sum += bits * (2 * ((uint64_t)i * c->words + k) + 1);
        }
    }
    return sum;
}

uint32_t cells_heat(uint32_t n, uint32_t i, int step, int period)
{
    const double turn = (double)(step % period) / period;            /* 0 .. 1 */
    const double at = turn < 0.5 ? 2 * turn : 2 - 2 * turn;          /* 0 .. 1 .. 0 */
    const double distance = (i - at * n) / (0.04 * n), d = distance * distance;
    return 1 + (uint32_t)(60 / (1 + d * d));
}
