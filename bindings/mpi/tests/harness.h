/* What the tests share: a count of failures over all ranks, and a field of elements whose bytes are known. */
#ifndef HARNESS_H
#define HARNESS_H

#include <stdio.h>
#include <stdlib.h>
#include <string.h>
#include <tezgumi_mpi.h>

extern int rank, ranks;

/* Notes on this rank that something does not hold. */
#define EXPECT(holds) do { if (!(holds)) complain(__FILE__, __LINE__, #holds); } while (0)
void complain(const char *file, int line, const char *what);

void begin_tests(int *argc, char ***argv);
/* Rank 0 prints a line for each test: ok and its name, or FAILED and its name if anything did not hold on some rank. */
void run_test(const char *name, void (*test)(void));
/* The status to exit with. */
int end_tests(void);

/* A number below a limit, the same sequence on all ranks for the same seed. */
uint32_t next_random(uint32_t *seed, uint32_t below);

enum { FIELD_MOST = 4096 };

/* How a field is dealt out. */
typedef enum {
    IN_ORDER,  /* ranges of as many elements, in order of the ranks */
    REVERSED,  /* the same from the last rank to the first */
    SCATTERED, /* each element anywhere */
    ON_HALF    /* each element anywhere on the first half of the ranks */
} dealing;

/* Elements with loads and sizes that every rank knows, and bytes that only the holder has. */
typedef struct {
    uint32_t n;
    uint64_t load[FIELD_MOST];
    uint32_t size[FIELD_MOST];
    uint32_t dealt[FIELD_MOST];      /* the rank that each was dealt to */
    unsigned char *held[FIELD_MOST]; /* here, or null */
    uint32_t fail_pack, fail_unpack; /* the element at which the callback fails; UINT32_MAX for none */
    uint32_t packs, unpacks, drops;  /* calls on this rank */
} field;

/* Deals a new field out, with loads and sizes from the seed. */
void deal(field *f, uint32_t n, uint32_t seed, dealing how);
/* Deals the elements out by f->dealt, with sizes as they are. */
void deal_again(field *f);
void field_free(field *f);

/* The elements held here, in an order of no meaning. */
uint32_t elements_of(const field *f, tezgumi_mpi_element *mine);

int field_pack(void *app, uint32_t index, void *to, uint32_t bytes);
int field_unpack(void *app, uint32_t index, const void *from, uint32_t bytes);
void field_drop(void *app, uint32_t index);
tezgumi_mpi_callbacks callbacks_of(field *f);

/* Rebalances a field. */
int rebalance(field *f, const tezgumi_mpi_options *options, tezgumi_mpi_chain *chain, tezgumi_mpi_report *report);

/* Expects each element to be on one rank, with its bytes. Collective. */
void expect_whole(const field *f);
/* Expects each element to be where places says. */
void expect_at(const field *f, const uint32_t *places);
/* Expects every rank to have the same number. Collective. */
void expect_same(int64_t number);

#endif
