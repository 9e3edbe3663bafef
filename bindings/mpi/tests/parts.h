/* What the tests of parts share: fields that are dealt out as parts of consecutive elements. */
#ifndef PARTS_H
#define PARTS_H

#include "harness.h"

/* The kinds of loads. */
typedef enum { EVEN, SKEW, ZERO, GIANT, KINDS } kind;

/* Deals a new field out as parts, in any order of the ranks; some ranks may have none. With spread 0 the first of that order has all. */
void deal_parts(field *f, uint32_t n, uint32_t seed, kind loads, int spread);

/* This rank's part, which is a part: its lists are those of the field. */
tezgumi_mpi_part part_of(const field *f);

/* The rank of each element by the decision. */
void places_by(const tezgumi_mpi_layout *layout, uint32_t *places);

/* How many runs are gathered without a search for fewer: UINT64_MAX for as many as the library says. Link with --wrap for
 * tezgumi_mpi_enough. */
extern uint64_t enough;

#endif
