/* Replays a dump of format LBD1 (docs/FORMATS.md) as lb_sim does: decides, checks, and prints the decision.
 *
 *     replay FILE [PES]
 */
#include <inttypes.h>
#include <stdio.h>
#include <tezgumi.h>

enum { HEAD = 16, ELEMENT = 12 };

typedef struct {
    tezgumi_run run;
    uint32_t step;
    uint64_t *loads;
    uint32_t *bytes, *places;
} dump;

static uint32_t word(const unsigned char *at)
{
    return (uint32_t)at[0] << 24 | (uint32_t)at[1] << 16 | (uint32_t)at[2] << 8 | at[3];
}

/* Reads a dump into room of its own. Answers 0 where the file is none. What it says is for the planner to judge. */
static int read_dump(FILE *file, dump *d)
{
    unsigned char head[HEAD], element[ELEMENT];
    uint32_t i;
    memset(d, 0, sizeof *d);
    if (fread(head, 1, HEAD, file) != HEAD || memcmp(head, "LBD1", 4)) return 0;
    d->step = word(head + 4);
    d->run.procs = word(head + 8);
    d->run.n = word(head + 12);
    if (d->run.n > TEZGUMI_DUMP_ELEMENTS) return 0;
    d->run.loads = d->loads = (uint64_t *)malloc((d->run.n + 1) * sizeof *d->loads);
    d->run.bytes = d->bytes = (uint32_t *)malloc((d->run.n + 1) * sizeof *d->bytes);
    d->run.places = d->places = (uint32_t *)malloc((d->run.n + 1) * sizeof *d->places);
    if (!d->loads || !d->bytes || !d->places) return 0;
    for (i = 0; i < d->run.n; i++) {
        if (fread(element, 1, ELEMENT, file) != ELEMENT) return 0;
        d->loads[i] = word(element);
        d->bytes[i] = word(element + 4);
        d->places[i] = word(element + 8);
    }
    return fgetc(file) == EOF;
}

/* Prints a decision, and the number of PEs that it was made for, which may be another than the run's. */
static void print_decision(const dump *d, const tezgumi_decision *decision)
{
    uint32_t b, i;
    printf("step %" PRIu32 " procs %" PRIu32 " elements %" PRIu32 "\n", d->step, decision->pes, d->run.n);
    printf("bottleneck %" PRIu64 "\nfence", decision->bottleneck);
    for (i = 0; i < decision->stops_count; i++) printf(" %" PRIu32, decision->stops[i]);
    if (decision->stops_count == 0) printf(" zero");
    printf("\n");
    for (b = 0; b < decision->pes; b++) {
        const uint32_t first = decision->cuts[b], end = decision->cuts[b + 1];
        uint64_t load = 0;
        for (i = first; i < end; i++) load += d->loads[i];
        printf("block %" PRIu32 " %" PRIu32 "..%" PRIu32 " load %" PRIu64 " pe ", b, first, end, load);
        if (first == end) printf("-\n");
        else printf("%" PRIu32 "\n", decision->names[b]);
    }
    printf("moved %" PRIu64 "\n", decision->moved);
}

/* Decides and checks. */
static int32_t replay(const dump *d, uint32_t pes)
{
    tezgumi_decision decision;
    int32_t status = tezgumi_decision_room(&decision, d->run.n, pes);
    if (status == TEZGUMI_OK) status = tezgumi_decide_run(&d->run, &decision);
    if (status == TEZGUMI_OK) status = tezgumi_check_run(&d->run, &decision);
    if (status == TEZGUMI_OK) print_decision(d, &decision);
    tezgumi_decision_free(&decision);
    return status;
}

/* The number of PEs that a word gives; 0, which the planner refuses, where it gives none. */
static uint32_t pes_of(const char *word)
{
    char *end;
    const unsigned long number = strtoul(word, &end, 10);
    return *end || number > TEZGUMI_PES ? 0 : (uint32_t)number;
}

int main(int count, char **words)
{
    FILE *file = count > 1 ? fopen(words[1], "rb") : NULL;
    dump d;
    int32_t status = TEZGUMI_BAD_INPUT;
    memset(&d, 0, sizeof d);
    if (file && read_dump(file, &d)) status = replay(&d, count > 2 ? pes_of(words[2]) : d.run.procs);
    if (status != TEZGUMI_OK) fprintf(stderr, "not replayed: %s\n", tezgumi_status_name(status));
    if (file) fclose(file);
    free(d.loads);
    free(d.bytes);
    free(d.places);
    return status != TEZGUMI_OK;
}
