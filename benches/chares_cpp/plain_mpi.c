/* The letters of letters.cpp by MPI alone: each is an MPI_Isend of the same bytes to the rank that a table names, and nothing can move.
 *
 *     plain_mpi WHERE ELEMENTS TOKENS HOPS BYTES
 *
 * What goes to an element of the same rank is sent by MPI too. A rank has at most WINDOW sends under way, which is to be more than the tokens
 * of its elements. It asks what came, receives it, and calls the handler of the element that it names. It prints what letters.cpp prints.
 */
#include <mpi.h>
#include <sched.h>
#include <stdint.h>
#include <stdio.h>
#include <stdlib.h>
#include <string.h>
#include <sys/resource.h>
#include <time.h>

enum { WINDOW = 4096, HEAD = 8 };

struct element {
    uint32_t to, got;
    uint64_t sum;
};

static struct element *elements;
static uint32_t *places, n, tokens, hops, bytes;
static MPI_Request requests[WINDOW];
static unsigned char *buffers, *incoming;
static unsigned free_slots[WINDOW], free_count;
static uint64_t awaited, got;
static int rank, ranks;

/* A place for a send: where there is none, those that have left are asked for. */
static unsigned slot(void)
{
    while (free_count == 0) {
        int done = 0, which[WINDOW];
        MPI_Testsome(WINDOW, requests, &done, which, MPI_STATUSES_IGNORE);
        for (int i = 0; i < done; i++) free_slots[free_count++] = (unsigned)which[i];
    }
    return free_slots[--free_count];
}

static void post(uint32_t to, uint32_t left, const unsigned char *body)
{
    unsigned which = slot();
    unsigned char *at = buffers + (size_t)which * (HEAD + bytes);
    memcpy(at, &to, 4);
    memcpy(at + 4, &left, 4);
    memcpy(at + HEAD, body, bytes);
    MPI_Isend(at, (int)(HEAD + bytes), MPI_BYTE, (int)places[to], 0, MPI_COMM_WORLD, &requests[which]);
}

static void handle(uint32_t to, uint32_t left, const unsigned char *body)
{
    struct element *it = &elements[to];
    it->sum += (uint64_t)left * (bytes ? 1u + body[bytes / 2] : 1u);
    it->got++;
    got++;
    if (left > 1) post(it->to, left - 1, body);
}

/* Takes one message, if one has come. */
static void take(void)
{
    static int idle;
    int is_there = 0;
    MPI_Status status;
    MPI_Iprobe(MPI_ANY_SOURCE, 0, MPI_COMM_WORLD, &is_there, &status);
    if (!is_there) {
        idle++; /* it waits as a PE of chares does */
        struct timespec pause = {0, 1000 * (idle > 706 ? 500 : idle - 206)};
        if (idle > 256) nanosleep(&pause, NULL);
        else if (idle > 64) sched_yield();
        return;
    }
    idle = 0;
    MPI_Recv(incoming, (int)(HEAD + bytes), MPI_BYTE, status.MPI_SOURCE, 0, MPI_COMM_WORLD, MPI_STATUS_IGNORE);
    uint32_t to, left;
    memcpy(&to, incoming, 4);
    memcpy(&left, incoming + 4, 4);
    handle(to, left, incoming + HEAD);
}

static double processor_seconds(void)
{
    struct rusage used;
    getrusage(RUSAGE_SELF, &used);
    return (double)(used.ru_utime.tv_sec + used.ru_stime.tv_sec) + 1e-6 * (double)(used.ru_utime.tv_usec + used.ru_stime.tv_usec);
}

int main(int argc, char **argv)
{
    MPI_Init(&argc, &argv);
    if (argc < 6) return 2;
    MPI_Comm_rank(MPI_COMM_WORLD, &rank);
    MPI_Comm_size(MPI_COMM_WORLD, &ranks);
    int away = strcmp(argv[1], "away") == 0;
    n = (uint32_t)atol(argv[2]);
    tokens = (uint32_t)atol(argv[3]);
    hops = (uint32_t)atol(argv[4]);
    bytes = (uint32_t)atol(argv[5]);
    elements = calloc(n, sizeof *elements);
    places = calloc(n, sizeof *places);
    buffers = malloc((size_t)WINDOW * (HEAD + bytes));
    incoming = malloc(HEAD + bytes);
    unsigned char *body = malloc(bytes + 1);
    if (!elements || !places || !buffers || !incoming || !body) return 1;
    for (unsigned i = 0; i < WINDOW; i++) {
        requests[i] = MPI_REQUEST_NULL;
        free_slots[free_count++] = i;
    }
    for (uint32_t i = 0; i < n; i++) {
        places[i] = (uint32_t)((uint64_t)i * (uint64_t)ranks / n);
        elements[i].to = away ? (i + n / 2) % n : i ^ 1;
        if (places[i] == (uint32_t)rank) awaited += (uint64_t)tokens * hops;
    }
    MPI_Barrier(MPI_COMM_WORLD);
    double used = -processor_seconds();
    for (uint32_t i = 0; i < n; i++) {
        if (places[i] != (uint32_t)rank) continue;
        memset(body, (int)(i & 255), bytes);
        for (uint32_t k = 0; k < tokens; k++) {
            post(elements[i].to, hops, body);
        }
    }
    while (got < awaited) take();
    MPI_Waitall(WINDOW, requests, MPI_STATUSES_IGNORE);
    used += processor_seconds();
    struct rusage whole;
    getrusage(RUSAGE_SELF, &whole);
    long memory = whole.ru_maxrss;
    double letters = (double)n * tokens * hops;
    uint64_t *sums = calloc(n, sizeof *sums), sum = 0;
    for (uint32_t i = 0; i < n; i++) sums[i] = elements[i].sum;
    MPI_Allreduce(MPI_IN_PLACE, sums, (int)n, MPI_UINT64_T, MPI_SUM, MPI_COMM_WORLD);
    MPI_Allreduce(MPI_IN_PLACE, &used, 1, MPI_DOUBLE, MPI_SUM, MPI_COMM_WORLD);
    MPI_Allreduce(MPI_IN_PLACE, &memory, 1, MPI_LONG, MPI_MAX, MPI_COMM_WORLD);
    for (uint32_t i = 0; i < n; i++) sum = sum * 31 + sums[i];
    if (rank == 0) printf("letters %.0f sum %016llx ns %.1f KiB %ld\n", letters, (unsigned long long)sum, 1e9 * used / letters, memory);
    MPI_Finalize();
    return 0;
}
