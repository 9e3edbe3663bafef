/* The data of the example: a chain of cells, each a row of numbers, of which a rank holds some. */
#ifndef CELLS_H
#define CELLS_H

#include <tezgumi_mpi.h>

typedef struct {
    uint32_t n;      /* cells of the chain */
    uint32_t words;  /* numbers of a cell */
    double **rows;   /* n: the numbers of the cells that are here, null for the others */
    uint64_t *loads; /* n: sweeps that were done on each here since the last rebalance */
} cells;

/* Deals the cells out in ranges of as many cells, with their first numbers. Ends the program where memory is out. */
void cells_open(cells *c, uint32_t n, uint32_t words, int rank, int ranks);
void cells_close(cells *c);

uint32_t cells_bytes(const cells *c); /* of a packed cell */

/* Callbacks: app is the cells. */
int cells_pack(void *app, uint32_t i, void *to, uint32_t bytes);
int cells_unpack(void *app, uint32_t i, const void *from, uint32_t bytes);
void cells_drop(void *app, uint32_t i);

/* The cells that are here, as the library wants them. How many. */
uint32_t cells_here(const cells *c, tezgumi_mpi_element *mine);

/* Does so many sweeps of a nonlinear map on each number of a cell, pulled by the means of its neighbours before. */
void cells_work(cells *c, uint32_t i, double left, double right, uint32_t sweeps);
double cells_mean(const cells *c, uint32_t i);

/* A checksum of the cells that are here. The sum over all ranks is the same however the cells are dealt out. */
uint64_t cells_checksum(const cells *c);

/* The sweeps that a cell needs in a step: 1 far from the hot spot, and 61 in it. The hot spot goes from one end of the
 * chain to the other and back in so many steps. Plain arithmetic, the same on every machine. */
uint32_t cells_heat(uint32_t n, uint32_t i, int step, int period);

/* malloc that ends the program where memory is out. */
void *room_for(size_t count, size_t size);

#endif
