/* Refuses each request for memory in turn: out of memory, nothing written, all given back, and the same call then
 * succeeds, also on 300 PEs. Claims with long lists, which take no more memory than others; a long run, whose lists are not
 * copied. And full runs in threads of 32 KiB of stack, side by side. Linked with
 * -Wl,--wrap=malloc,--wrap=calloc,--wrap=realloc,--wrap=free -pthread. */
#include "harness.h"
#include <pthread.h>
#include <tezgumi_any_order.h>
#include <tezgumi_speeds.h>

enum { N = 3, P = 2, MANY = 65536, PES = 256, MORE = 300, THREADS = 4, STACK = 32768 };

/* While it counts: how many requests are still granted, how many there were, how many blocks are held, and how many bytes
 * the greatest request was for. The compiler takes it that malloc and its kin touch nothing of this file, so all is
 * volatile. */
static volatile int counting;
static volatile long granted, requests, held;
static volatile size_t greatest;

void *__real_malloc(size_t);
void *__real_calloc(size_t, size_t);
void *__real_realloc(void *, size_t);
void __real_free(void *);
void *__wrap_malloc(size_t);
void *__wrap_calloc(size_t, size_t);
void *__wrap_realloc(void *, size_t);
void __wrap_free(void *);

static int refuses(size_t size)
{
    requests++;
    if (size > greatest) greatest = size;
    return granted-- <= 0;
}

void *__wrap_malloc(size_t size)
{
    void *block;
    if (!counting) return __real_malloc(size);
    block = refuses(size) ? NULL : __real_malloc(size);
    held += block != NULL;
    return block;
}

void *__wrap_calloc(size_t count, size_t size)
{
    void *block;
    if (!counting) return __real_calloc(count, size);
    block = refuses(count * size) ? NULL : __real_calloc(count, size);
    held += block != NULL;
    return block;
}

void *__wrap_realloc(void *old, size_t size)
{
    void *block;
    if (!counting) return __real_realloc(old, size);
    block = refuses(size) ? NULL : __real_realloc(old, size);
    held += block != NULL && old == NULL;
    return block;
}

void __wrap_free(void *block)
{
    if (counting) held -= block != NULL;
    __real_free(block);
}

static const uint64_t loads[N] = {1, 1, 2};
static const uint32_t bytes[N] = {10, 9, 8}, places[N] = {0, 1, 0};

/* The three loads on two PEs of other speeds. */
static const uint32_t speeds[P] = {1, 2};
static const uint64_t background[P] = {0, 1};

/* Ten elements on three PEs, whose work has gathered in the middle: within 167 thousandths the cuts are near the present ones. */
enum { TEN = 10, Q = 3, THOUSANDTHS = 167, STEPS = 64 };
static const uint64_t ten_loads[TEN] = {1, 1, 1, 2, 7, 8, 6, 2, 1, 1};
static const uint32_t ten_bytes[TEN] = {10, 10, 10, 20, 60, 90, 70, 20, 10, 10}, ten_places[TEN] = {2, 2, 2, 2, 0, 0, 0, 1, 1, 1};

/* What a call writes. */
typedef struct {
    uint32_t new_places[N], cuts[P + 1], stops[P + 1], names[P];
    int64_t block_prices[P], pe_prices[P];
    uint64_t bottleneck, moved;
    size_t stops_count;
    uint32_t ten_new[TEN], near_cuts[Q + 1], least_cuts[Q + 1], ten_stops[Q + 1], present[Q + 1], ten_names[Q], order[Q];
    int64_t u[Q], v[Q];
    uint64_t rises[STEPS];
    uint64_t least;
    uint32_t at[STEPS], near_present;
    size_t starts[Q + 1], steps_count;
} output;

static int32_t call_plan(void *given)
{
    output *o = (output *)given;
    return tezgumi_plan(loads, N, bytes, N, places, N, P, P, o->new_places, N, &o->bottleneck, &o->moved);
}

static int32_t call_decide(void *given)
{
    output *o = (output *)given;
    return tezgumi_decide(loads, N, bytes, N, places, N, P, P, o->new_places, N, &o->bottleneck, &o->moved, o->cuts, P + 1,
        o->stops, P + 1, &o->stops_count, o->names, P, o->block_prices, P, o->pe_prices, P);
}

static int32_t call_check(void *given)
{
    output *o = (output *)given;
    return tezgumi_check(loads, N, bytes, N, places, N, P, P, o->new_places, N, o->bottleneck, o->moved, o->cuts, P + 1,
        o->stops, o->stops_count, o->names, P, o->block_prices, P, o->pe_prices, P);
}

static int32_t call_divide_speeds(void *given)
{
    output *o = (output *)given;
    return tezgumi_divide_speeds(loads, N, speeds, P, background, P, &o->bottleneck, &o->names[0], o->cuts, P + 1, o->stops, P + 1,
        &o->stops_count, &o->names[1]);
}

static int32_t call_check_speeds(void *given)
{
    output *o = (output *)given;
    return tezgumi_check_speeds(loads, N, speeds, P, background, P, o->bottleneck, o->names[0], o->cuts, P + 1, o->stops, o->stops_count,
        o->names[1], &o->order[0]);
}

static int32_t call_refine(void *given)
{
    output *o = (output *)given;
    return tezgumi_refine(ten_loads, TEN, ten_bytes, TEN, ten_places, TEN, Q, Q, THOUSANDTHS, 0, o->ten_new, TEN, &o->least,
        &o->bottleneck, &o->moved, &o->near_present, o->near_cuts, Q + 1, o->ten_stops, Q + 1, &o->stops_count, o->ten_names, Q, o->u, Q, o->v, Q,
        o->least_cuts, Q + 1, o->order, Q, o->present, Q + 1, o->starts, Q + 1, o->at, STEPS, o->rises, STEPS,
        &o->steps_count);
}

static int32_t call_check_refined(void *given)
{
    output *o = (output *)given;
    return tezgumi_check_refined(ten_loads, TEN, ten_bytes, TEN, ten_places, TEN, Q, Q, THOUSANDTHS, 0, o->ten_new, TEN,
        o->least, o->bottleneck, o->moved, o->near_cuts, Q + 1, o->ten_stops, o->stops_count, o->ten_names, Q, o->u, Q, o->v, Q,
        o->least_cuts, Q + 1, o->order, Q, o->present, Q + 1, o->starts, Q + 1, o->at, o->steps_count, o->rises,
        o->steps_count, &o->cuts[0], &o->cuts[1]);
}

/* Four elements on three PEs, of which the fewest bytes move in another order of the PEs. */
enum { FOUR = 4, ROWS = 2 * Q + 3 };
static const uint64_t four_loads[FOUR] = {6, 2, 1, 2};
static const uint32_t four_bytes[FOUR] = {2, 37, 15, 6}, four_places[FOUR] = {0, 0, 1, 2};

typedef struct {
    uint32_t new_places[FOUR], cuts[Q + 1], stops[Q + 1], names[Q], near_present, reordered, least_cuts[Q + 1], order[Q], present[Q + 1];
    int64_t u[Q], v[Q];
    uint64_t least, bottleneck, moved, rises[STEPS], level_bytes[STEPS];
    uint32_t at[STEPS], level_places[STEPS], flaw[3];
    size_t starts[Q + 1], level_starts[ROWS], stops_count, steps_count, levels_count;
} any_output;

static int32_t call_reorder(void *given)
{
    any_output *o = (any_output *)given;
    return tezgumi_reorder(four_loads, FOUR, four_bytes, FOUR, four_places, FOUR, Q, Q, 300, o->new_places, FOUR, &o->least,
        &o->bottleneck, &o->moved, &o->near_present, &o->reordered, o->cuts, Q + 1, o->stops, Q + 1, &o->stops_count, o->names, Q, o->u, Q,
        o->v, Q, o->least_cuts, Q + 1, o->order, Q, o->present, Q + 1, o->starts, Q + 1, o->at, STEPS, o->rises, STEPS, &o->steps_count,
        o->level_starts, ROWS, o->level_places, STEPS, o->level_bytes, STEPS, &o->levels_count);
}

static int32_t call_check_reordered(void *given)
{
    any_output *o = (any_output *)given;
    return tezgumi_check_reordered(four_loads, FOUR, four_bytes, FOUR, four_places, FOUR, Q, Q, 300, o->new_places, FOUR, o->least,
        o->bottleneck, o->moved, o->cuts, Q + 1, o->stops, o->stops_count, o->names, Q, o->u, Q, o->v, Q, o->least_cuts, Q + 1,
        o->level_starts, ROWS, o->level_places, o->levels_count, o->level_bytes, o->levels_count, &o->flaw[0], &o->flaw[1], &o->flaw[2]);
}

/* What is decided on as many elements as PEs, which are more than a dump has. */
typedef struct {
    uint32_t new_places[MORE], cuts[MORE + 1], stops[MORE + 1], names[MORE];
    int64_t block_prices[MORE], pe_prices[MORE];
    uint64_t bottleneck, moved;
    size_t stops_count;
} more_output;

static uint64_t more_loads[MORE];
static uint32_t more_bytes[MORE], more_places[MORE];

static int32_t more_plan(void *given)
{
    more_output *o = (more_output *)given;
    return tezgumi_plan(more_loads, MORE, more_bytes, MORE, more_places, MORE, MORE, MORE, o->new_places, MORE, &o->bottleneck, &o->moved);
}

static int32_t more_decide(void *given)
{
    more_output *o = (more_output *)given;
    return tezgumi_decide(more_loads, MORE, more_bytes, MORE, more_places, MORE, MORE, MORE, o->new_places, MORE, &o->bottleneck,
        &o->moved, o->cuts, MORE + 1, o->stops, MORE + 1, &o->stops_count, o->names, MORE, o->block_prices, MORE, o->pe_prices, MORE);
}

static int32_t more_check(void *given)
{
    more_output *o = (more_output *)given;
    return tezgumi_check(more_loads, MORE, more_bytes, MORE, more_places, MORE, MORE, MORE, o->new_places, MORE, o->bottleneck,
        o->moved, o->cuts, MORE + 1, o->stops, o->stops_count, o->names, MORE, o->block_prices, MORE, o->pe_prices, MORE);
}

/* Calls with what is given, of so many bytes, which is copied to be written to, and refuses each request in turn. */
static void each_refused(const char *name, int32_t (*call)(void *), const void *given, size_t size)
{
    long turn;
    int right = 1, kept = 1, back = 1;
    int32_t status = TEZGUMI_NO_MEMORY;
    static union {
        output few;
        more_output more;
    } o;
    for (turn = 0; status == TEZGUMI_NO_MEMORY && turn < 1000; turn++) {
        memcpy(&o, given, size);
        granted = turn;
        requests = held = 0;
        counting = 1;
        status = call(&o);
        counting = 0;
        back = back && held == 0;
        right = right && (status == TEZGUMI_NO_MEMORY || (status == TEZGUMI_OK && requests == turn));
        kept = kept && (status == TEZGUMI_OK || !memcmp(&o, given, size));
    }
    printf("%s: %ld requests, each refused in turn\n", name, requests);
    test("there are requests, and without one the call is out of memory", right && requests > 0);
    test("nothing was written", kept);
    test("each block was given back", back);
    same("with all it succeeds", status, TEZGUMI_OK);
}

/* A right claim but for one list that is too long has the flaw of that list, and no request is for the whole list. */
static void long_lists(const output *o)
{
    static const uint32_t words[MANY];
    static const int64_t prices[MANY];
    static const struct {
        const char *what;
        int32_t flaw;
        int list;
    } rows[] = {
        {"new places", TEZGUMI_PLACES_WRONG, 0}, {"cuts", TEZGUMI_CUT_COUNT, 1}, {"stops", TEZGUMI_FENCE_COUNT, 2},
        {"names", TEZGUMI_NAME_COUNT, 3}, {"prices of blocks", TEZGUMI_PRICE_COUNT, 4}, {"prices of PEs", TEZGUMI_PRICE_COUNT, 5},
    };
    size_t i;
    for (i = 0; i < sizeof rows / sizeof *rows; i++) {
        const int at = rows[i].list;
        int32_t status;
        greatest = 0;
        granted = 1000;
        counting = 1;
        status = tezgumi_check(loads, N, bytes, N, places, N, P, P, at == 0 ? words : o->new_places, at == 0 ? MANY : N,
            o->bottleneck, o->moved, at == 1 ? words : o->cuts, at == 1 ? MANY : P + 1, at == 2 ? words : o->stops,
            at == 2 ? MANY : o->stops_count, at == 3 ? words : o->names, at == 3 ? MANY : P, at == 4 ? prices : o->block_prices,
            at == 4 ? MANY : P, at == 5 ? prices : o->pe_prices, at == 5 ? MANY : P);
        counting = 0;
        printf("65,536 %s:\n", rows[i].what);
        same("the flaw", status, rows[i].flaw);
        test("no request is for more than a page", greatest <= 4096);
    }
}

/* 300 elements on 300 PEs: each of them is a block, and stays. */
static void on_more_pes(void)
{
    static more_output empty, decided;
    uint32_t i;
    memset(&empty, 0x5a, sizeof empty);
    decided = empty;
    for (i = 0; i < MORE; i++) {
        more_loads[i] = 7;
        more_bytes[i] = 10 + i;
        more_places[i] = i;
    }
    if (more_decide(&decided) != TEZGUMI_OK) exit(1);
    test("300 elements on 300 PEs stay", decided.bottleneck == 7 && decided.moved == 0 && decided.stops_count == MORE + 1);
    each_refused("plan for 300 PEs", more_plan, &empty, sizeof empty);
    each_refused("decide for 300 PEs", more_decide, &empty, sizeof empty);
    each_refused("check for 300 PEs", more_check, &decided, sizeof decided);
}

static uint64_t many_loads[MANY];
static uint32_t many_bytes[MANY], many_places[MANY];

/* No list of a long run is copied: each request is for less than the shortest of them. */
static void a_long_run(void)
{
    static uint32_t to[MANY];
    uint64_t bottleneck, moved;
    greatest = 0;
    granted = 1000;
    counting = 1;
    same("65,536 elements on two PEs", tezgumi_plan(many_loads, MANY, many_bytes, MANY, many_places, MANY, 2, 2, to, MANY, &bottleneck,
        &moved), TEZGUMI_OK);
    counting = 0;
    test("no request is for as much as a list of them", greatest < MANY * sizeof(uint32_t));
}

static void *decide_much(void *arg)
{
    const tezgumi_run many = {MANY, PES, many_loads, many_bytes, many_places};
    tezgumi_decision *d = (tezgumi_decision *)arg;
    return tezgumi_decide_run(&many, d) == TEZGUMI_OK && tezgumi_check_run(&many, d) == TEZGUMI_OK ? arg : NULL;
}

static void *refine_much(void *arg)
{
    const tezgumi_run many = {MANY, PES, many_loads, many_bytes, many_places};
    tezgumi_refinement *d = (tezgumi_refinement *)arg;
    return tezgumi_refine_run(&many, 20, 0, d) == TEZGUMI_OK && tezgumi_check_refinement(&many, d, NULL) == TEZGUMI_OK ? arg : NULL;
}

/* The same within a tolerance, in one thread. */
static int a_thread_refines(void)
{
    tezgumi_refinement d;
    pthread_t thread;
    pthread_attr_t small;
    void *answer = NULL;
    int right;
    if (pthread_attr_init(&small) || pthread_attr_setstacksize(&small, STACK)) return 0;
    if (tezgumi_refinement_room(&d, MANY, PES) != TEZGUMI_OK || pthread_create(&thread, &small, refine_much, &d)) return 0;
    right = pthread_join(thread, &answer) == 0 && answer == &d;
    tezgumi_refinement_free(&d);
    return right;
}

/* A run whose elements stand on the PEs in falling order, with half of the load on a quarter of them. */
enum { SOME = 16384, SOME_PES = 64 };
static uint64_t some_loads[SOME];
static uint32_t some_bytes[SOME], some_places[SOME];

static void *reorder_much(void *arg)
{
    const tezgumi_run some = {SOME, SOME_PES, some_loads, some_bytes, some_places};
    tezgumi_reordering *d = (tezgumi_reordering *)arg;
    if (tezgumi_reorder_run(&some, 20, d) != TEZGUMI_OK || d->reordered != 1) return NULL;
    return tezgumi_check_reordering(&some, d, NULL) == TEZGUMI_OK ? arg : NULL;
}

/* The same in any order of the PEs, in one thread. */
static int a_thread_reorders(void)
{
    tezgumi_reordering d;
    pthread_t thread;
    pthread_attr_t small;
    void *answer = NULL;
    uint32_t i;
    int right;
    for (i = 0; i < SOME; i++) {
        some_loads[i] = i < SOME / 4 ? 3 : 1;
        some_bytes[i] = i % 7 + 1;
        some_places[i] = (SOME_PES - 1) - i * SOME_PES / SOME;
    }
    if (pthread_attr_init(&small) || pthread_attr_setstacksize(&small, STACK)) return 0;
    if (tezgumi_reordering_room(&d, SOME, SOME_PES) != TEZGUMI_OK || pthread_create(&thread, &small, reorder_much, &d)) return 0;
    right = pthread_join(thread, &answer) == 0 && answer == &d;
    tezgumi_reordering_free(&d);
    return right;
}

/* So many threads decide, on so many PEs each. */
static int threads_decide(int count, uint32_t pes)
{
    tezgumi_decision decisions[THREADS];
    pthread_t threads[THREADS];
    pthread_attr_t small;
    int t, right = 1;
    if (pthread_attr_init(&small) || pthread_attr_setstacksize(&small, STACK)) return 0;
    for (t = 0; t < count; t++) {
        if (tezgumi_decision_room(&decisions[t], MANY, pes) != TEZGUMI_OK) return 0;
        if (pthread_create(&threads[t], &small, decide_much, &decisions[t])) return 0;
    }
    for (t = 0; t < count; t++) {
        void *answer = NULL;
        right = pthread_join(threads[t], &answer) == 0 && answer == &decisions[t] && right;
        tezgumi_decision_free(&decisions[t]);
    }
    return right;
}

int main(void)
{
    output empty, decided;
    any_output none, any;
    memset(&empty, 0x5a, sizeof empty);
    decided = empty;
    if (call_decide(&decided) != TEZGUMI_OK) return 1;
    each_refused("plan", call_plan, &empty, sizeof empty);
    each_refused("decide", call_decide, &empty, sizeof empty);
    each_refused("check", call_check, &decided, sizeof decided);
    long_lists(&decided);
    if (call_divide_speeds(&decided) != TEZGUMI_OK || decided.stops_count == 0) return 1;
    each_refused("divide by speeds", call_divide_speeds, &empty, sizeof empty);
    each_refused("check by speeds", call_check_speeds, &decided, sizeof decided);
    on_more_pes();
    a_long_run();
    if (call_refine(&decided) != TEZGUMI_OK || decided.near_present != 1) return 1;
    each_refused("refine", call_refine, &empty, sizeof empty);
    each_refused("check within a tolerance", call_check_refined, &decided, sizeof decided);
    memset(&none, 0x5a, sizeof none);
    any = none;
    if (call_reorder(&any) != TEZGUMI_OK || any.reordered != 1) return 1;
    each_refused("reorder", call_reorder, &none, sizeof none);
    each_refused("check in any order", call_check_reordered, &any, sizeof any);
    {
        tezgumi_decision d;
        int32_t status;
        granted = 0;
        counting = 1;
        status = tezgumi_decision_room(&d, N, P);
        counting = 0;
        same("room is refused", status, TEZGUMI_NO_MEMORY);
        tezgumi_decision_free(&d);
    }
    test("a thread of 32 KiB of stack decides within a tolerance", a_thread_refines());
    test("and in any order of the PEs", a_thread_reorders());
    test("threads of 32 KiB of stack decide and check 65,536 elements", threads_decide(THREADS, PES));
    test("and one on the greatest number of PEs", threads_decide(1, TEZGUMI_PES));
    return failures != 0;
}
