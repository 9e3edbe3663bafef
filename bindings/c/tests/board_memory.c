/* Refuses each request for memory of a board in turn: out of memory, the board as it was, all that was taken given back, and the same
 * call then succeeds. A call that decides a round may keep one block, by which the board's list of rounds has grown; it then asks once
 * less where it is called again. And no call but those that open a board, decide a round or write a dump asks for any. Linked with
 * -Wl,--wrap=malloc,--wrap=realloc,--wrap=free. */
#include "harness.h"

#include <stdlib.h>
#include <tezgumi_board.h>

enum { N = 40, P = 5 };

/* While it counts: how many requests are still granted, how many there were, and how many blocks are held. The compiler takes it that
 * malloc and its kin touch nothing of this file, so all is volatile. */
static volatile int counting;
static volatile long granted, requests, held;

void *__real_malloc(size_t);
void *__real_realloc(void *, size_t);
void __real_free(void *);
void *__wrap_malloc(size_t);
void *__wrap_realloc(void *, size_t);
void __wrap_free(void *);

static int refuses(void)
{
    requests++;
    return granted-- <= 0;
}

void *__wrap_malloc(size_t size)
{
    void *block;
    if (!counting) return __real_malloc(size);
    block = refuses() ? NULL : __real_malloc(size);
    held += block != NULL;
    return block;
}

void *__wrap_realloc(void *old, size_t size)
{
    void *block;
    if (!counting) return __real_realloc(old, size);
    block = refuses() ? NULL : __real_realloc(old, size);
    held += block != NULL && old == NULL;
    return block;
}

void __wrap_free(void *block)
{
    if (counting) held -= block != NULL;
    __real_free(block);
}

static struct tezgumi_board board;
static uint32_t round_read, cuts[P + 1], names[P], bytes[N], places[N], pe;
static uint64_t bottleneck, moved, loads[N];
static uint8_t text[4096];
static size_t text_len;

static int32_t open_least(void) { return tezgumi_board_open(&board, N, P); }
static int32_t open_within(void) { return tezgumi_board_open_within(&board, N, P, 100); }
static int32_t decide(void) { return tezgumi_board_decide(&board, &round_read); }
static int32_t dump(void) { return tezgumi_board_dump(&board, 1, text, sizeof text, &text_len); }

/* Refuses each request of a call in turn. Until it succeeds the board is as it was: open or not, in this round, and complete or not. Of
 * all that was taken by calls that were refused, at most `kept` blocks stay. */
static void each_refused(const char *name, int32_t (*call)(void), int32_t complete, uint32_t round, long kept)
{
    int32_t status = TEZGUMI_BOARD_NO_MEMORY;
    const bool was_open = board.is_open;
    const long before = held;
    int right = 1, same_board = 1, back = 1;
    long turn;
    for (turn = 0; status == TEZGUMI_BOARD_NO_MEMORY && turn < 1000; turn++) {
        uint32_t present = 0;
        granted = turn;
        requests = 0;
        counting = 1;
        status = call();
        counting = 0;
        right = right && (status == TEZGUMI_BOARD_NO_MEMORY || (status == TEZGUMI_BOARD_OK && requests <= turn && requests >= turn - kept));
        if (status == TEZGUMI_BOARD_OK) break;
        back = back && held >= before && held <= before + kept;
        tezgumi_board_round(&board, &present);
        same_board = same_board && board.is_open == was_open && tezgumi_board_is_complete(&board) == complete && present == round;
    }
    printf("%s: %ld requests, each refused in turn\n", name, requests);
    test("there are requests, and without one the call is out of memory", right && requests > 0);
    test("the board is as it was", same_board);
    test("what was taken was given back", back);
    same("with all it succeeds", status, TEZGUMI_BOARD_OK);
}

/* These calls ask for no memory. */
static void reports(uint32_t round)
{
    uint32_t i;
    int right = 1;
    granted = requests = 0;
    counting = 1;
    for (i = 0; i < N; i++) {
        right = right && tezgumi_board_report(&board, i, round, (uint64_t)(i * i % 23), 100 + i % 7, (i + round) % P) == TEZGUMI_BOARD_OK;
    }
    right = right && tezgumi_board_is_complete(&board) == 1 && tezgumi_board_all_finished(&board) == 0;
    counting = 0;
    test("elements report without memory", right && requests == 0);
}

static void readings(uint32_t round)
{
    uint32_t i;
    int right = 1;
    granted = requests = 0;
    counting = 1;
    right = right && tezgumi_board_decision(&board, round, cuts, P + 1, names, P, &bottleneck, &moved) == TEZGUMI_BOARD_OK;
    right = right && tezgumi_board_snapshot(&board, round, loads, N, bytes, N, places, N) == TEZGUMI_BOARD_OK;
    for (i = 0; i < N; i++) right = right && tezgumi_board_place(&board, round, i, &pe) == TEZGUMI_BOARD_OK;
    right = right && tezgumi_board_round(&board, &round_read) == TEZGUMI_BOARD_OK && tezgumi_board_finish(&board, 0) == TEZGUMI_BOARD_OK;
    counting = 0;
    test("a round is read without memory", right && requests == 0);
}

static void life(const char *name, int32_t (*call)(void))
{
    uint32_t round;
    held = 0;
    each_refused(name, call, TEZGUMI_BOARD_CLOSED, 0, 0);
    for (round = 1; round <= 2; round++) {
        reports(round);
        each_refused("decide", decide, 1, round, 1);
        readings(round);
        each_refused("dump", dump, 0, round + 1, 0);
    }
    counting = 1;
    same("close", tezgumi_board_close(&board), TEZGUMI_BOARD_OK);
    counting = 0;
    same("blocks that are left", held, 0);
}

int main(void)
{
    life("open", open_least);
    life("open within a tolerance", open_within);
    return failures != 0;
}
