/* What the tests of the C library print: a line for each thing that was tested. */
#ifndef TEZGUMI_TESTS_HARNESS_H
#define TEZGUMI_TESTS_HARNESS_H

#include <stdio.h>

static int failures;

/* A test passed, or it did not. */
static inline void test(const char *what, int holds)
{
    printf("%s: %s\n", holds ? "ok" : "FAILED", what);
    failures += !holds;
}

/* A number is what it has to be. */
static inline void same(const char *what, long long found, long long wanted)
{
    if (found != wanted) printf("found %lld and not %lld: ", found, wanted);
    test(what, found == wanted);
}

#endif
