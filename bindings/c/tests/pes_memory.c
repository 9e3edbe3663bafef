/* Two PEs, with each request for memory of the calls refused in turn: the call that it was for says so, the PE is as it was, the same
 * call then succeeds, and all goes on as in two_pes.c. In the end nothing is held. Linked with
 * -Wl,--wrap=malloc,--wrap=calloc,--wrap=realloc,--wrap=free. */
#include "tezgumi_chares.h"
#include "harness.h"

/* While it counts: how many requests come before the one that is refused, how many were refused, and how many blocks are held. The
 * compiler takes it that malloc and its kin touch nothing of this file, so all is volatile. */
static volatile int counting;
static volatile long before, refused, held;

/* What a call answered, how many calls were short of memory, and how many tests of a run failed. */
static int32_t answered;
static long short_of_memory, wrong;

void *__real_malloc(size_t);
void *__real_calloc(size_t, size_t);
void *__real_realloc(void *, size_t);
void __real_free(void *);
void *__wrap_malloc(size_t);
void *__wrap_calloc(size_t, size_t);
void *__wrap_realloc(void *, size_t);
void __wrap_free(void *);

static int refuses(void)
{
    if (!counting || before-- != 0) return 0;
    refused++;
    return 1;
}

/* A block that was got. */
static void *got(void *block)
{
    if (counting) held += block != NULL;
    return block;
}

void *__wrap_malloc(size_t size) { return refuses() ? NULL : got(__real_malloc(size)); }

void *__wrap_calloc(size_t count, size_t size) { return refuses() ? NULL : got(__real_calloc(count, size)); }

void *__wrap_realloc(void *old, size_t size)
{
    if (refuses()) return NULL;
    return old == NULL ? got(__real_realloc(old, size)) : __real_realloc(old, size);
}

void __wrap_free(void *block)
{
    if (counting) held -= block != NULL;
    __real_free(block);
}

static void counts(int on) { counting = on; }

/* A call that is made again where it was short of memory. */
#define ASKED(call) (counts(1), answered = (call), counts(0), answered)
#define TRIED(call) (ASKED(call) == TEZGUMI_PE_NO_MEMORY ? (short_of_memory++, ASKED(call)) : answered)
#define tezgumi_pe_open(...) TRIED(tezgumi_pe_open(__VA_ARGS__))
#define tezgumi_pe_close(...) TRIED(tezgumi_pe_close(__VA_ARGS__))
#define tezgumi_pe_due(...) TRIED(tezgumi_pe_due(__VA_ARGS__))
#define tezgumi_pe_execute(...) TRIED(tezgumi_pe_execute(__VA_ARGS__))
#define tezgumi_pe_resume(...) TRIED(tezgumi_pe_resume(__VA_ARGS__))
#define tezgumi_pe_wanted(...) TRIED(tezgumi_pe_wanted(__VA_ARGS__))
#define tezgumi_pe_look(...) TRIED(tezgumi_pe_look(__VA_ARGS__))
#define tezgumi_pe_act(...) TRIED(tezgumi_pe_act(__VA_ARGS__))
#define tezgumi_pe_depart(...) TRIED(tezgumi_pe_depart(__VA_ARGS__))
#define tezgumi_pe_send(...) TRIED(tezgumi_pe_send(__VA_ARGS__))
#define tezgumi_pe_receive(...) TRIED(tezgumi_pe_receive(__VA_ARGS__))
#define tezgumi_pe_next_note(...) TRIED(tezgumi_pe_next_note(__VA_ARGS__))
#define tezgumi_pe_note_done(...) TRIED(tezgumi_pe_note_done(__VA_ARGS__))

static void quiet_test(const char *what, int holds)
{
    if (!holds) printf("at request %ld: %s\n", before, what);
    wrong += !holds;
}

static void quiet_same(const char *what, long long found, long long wanted) { quiet_test(what, found == wanted); }

#define test quiet_test
#define same quiet_same
#define main two_pes
#include "two_pes.c"
#undef test
#undef same
#undef main

int main(void)
{
    long request = 0;
    do {
        before = request++;
        refused = short_of_memory = 0;
        two_pes();
        if (refused) test("a request is refused, and the call is made again", refused == 1 && short_of_memory == 1 && wrong == 0 && held == 0);
    } while (refused && wrong == 0);
    test("each request was refused in turn", request > 10 && wrong == 0 && held == 0);
    return failures != 0 || wrong != 0;
}
