/* How a chain lies on the ranks, and how every rank comes to know it. */
#include "internal.h"

void tezgumi_mpi_layout_free(tezgumi_mpi_layout *layout)
{
    if (!layout) return;
    free(layout->room);
    memset(layout, 0, sizeof *layout);
}

int tezgumi_mpi_layout_room(tezgumi_mpi_layout *layout, uint32_t ranks)
{
    if (!layout->room || layout->ranks != ranks) {
        tezgumi_mpi_layout_free(layout);
        layout->room = malloc((6 * (size_t)ranks + 1) * sizeof(uint32_t));
        if (!layout->room) return TEZGUMI_NO_MEMORY;
    }
    layout->ranks = ranks;
    layout->move = 0;
    layout->firsts = (uint32_t *)layout->room;
    layout->counts = layout->firsts + ranks;
    layout->names = layout->counts + ranks;
    layout->sent = layout->names + ranks;
    layout->received = layout->sent + ranks;
    layout->cuts = layout->received + ranks;
    memset(layout->sent, 0, 2 * (size_t)ranks * sizeof *layout->sent);
    return TEZGUMI_OK;
}

/* A fingerprint of options on which the decision depends, which is odd; REFINES or NO_TOLERANCE where they are out of order. */
enum { NO_TOLERANCE = 0, REFINES = 2 };
static uint64_t print_of(const tezgumi_mpi_options *options)
{
    uint32_t words[5] = {0};
    if (options->refine && !(options->keep_order && options->tolerance <= 1)) return REFINES;
    if (!(options->tolerance >= 0)) return NO_TOLERANCE;
    memcpy(words, &options->tolerance, sizeof options->tolerance);
    words[2] = options->skip_check != 0;
    words[3] = options->keep_order != 0;
    words[4] = options->refine != 0;
    return tezgumi_mpi_fingerprint(TEZGUMI_MPI_FINGERPRINT, words, 5) | 1;
}

/* Adds up what this rank holds. */
static void sum_up(const tezgumi_mpi_part *part, const tezgumi_mpi_options *options, tezgumi_mpi_summary *own)
{
    uint64_t load = 0, greatest = 0, bytes = 0, largest = 0;
    int is_heavy = 0; /* 64 bits do not hold the load */
    uint32_t i;
    for (i = 0; i < part->count; i++) {
        load += part->loads[i];
        is_heavy |= load < part->loads[i];
        if (part->loads[i] > greatest) greatest = part->loads[i];
    }
    for (i = 0; i < part->count; i++) {
        bytes += part->bytes[i];
        if (part->bytes[i] > largest) largest = part->bytes[i];
    }
    own->first = part->first;
    own->count = part->count;
    own->load = is_heavy ? UINT64_MAX : load;
    own->greatest = greatest;
    own->bytes = bytes;
    own->largest = largest;
    own->options = print_of(options);
}

static int by_number(const void *a, const void *b)
{
    const uint64_t x = *(const uint64_t *)a, y = *(const uint64_t *)b;
    return x < y ? -1 : x > y;
}

/* Puts the ranks that hold elements in the order of their parts. The keys are sorted in the room for the loads of ranges. */
static void sort_parts(tezgumi_mpi_search *s)
{
    uint64_t *keys = s->block_loads;
    uint32_t r, k = 0;
    for (r = 0; r < s->ranks; r++)
        if (s->told[r].count > 0) keys[k++] = s->told[r].first << 32 | r;
    s->parts = k;
    qsort(keys, k, sizeof *keys, by_number);
    for (k = 0; k < s->parts; k++) s->order[k] = (uint32_t)keys[k];
}

/* Notes a refusal that every rank finds by itself. */
static int refuse(tezgumi_mpi_search *s, int status, int rank, uint32_t at)
{
    s->report->failed_rank = rank;
    s->report->failed_at = at;
    return status;
}

/* Whether the parts are the chain, one behind the other: fills firsts and counts of the layout. */
static int join_parts(tezgumi_mpi_search *s)
{
    tezgumi_mpi_layout *l = s->layout;
    uint64_t n = 0, end = 0;
    uint32_t r, k;
    for (r = 0; r < s->ranks; r++) n += s->told[r].count;
    if (n > TEZGUMI_MPI_ELEMENTS) return refuse(s, tezgumi_mpi_broken(TEZGUMI_MPI_RULE_ELEMENTS), -1, 0);
    for (r = 0; r < s->ranks; r++) {
        l->firsts[r] = s->told[r].count ? (uint32_t)s->told[r].first : 0;
        l->counts[r] = (uint32_t)s->told[r].count;
    }
    for (k = 0; k < s->parts; k++) {
        r = s->order[k];
        if (l->firsts[r] != end) return refuse(s, TEZGUMI_MPI_BAD_INDEX, (int)r, l->firsts[r]);
        end += l->counts[r];
    }
    l->n = (uint32_t)n;
    return TEZGUMI_OK;
}

/* The ranks whose parts are beside this one. */
static void find_neighbours(tezgumi_mpi_search *s)
{
    uint32_t k;
    s->previous = s->next = s->last = MPI_PROC_NULL;
    if (s->parts > 0) s->last = (int)s->order[s->parts - 1];
    for (k = 0; k < s->parts; k++) {
        if (s->order[k] != s->rank) continue;
        if (k > 0) s->previous = (int)s->order[k - 1];
        if (k + 1 < s->parts) s->next = (int)s->order[k + 1];
    }
}

/* Adds up what the ranks have told, and looks for what is past a limit. */
static int add_up(tezgumi_mpi_search *s)
{
    uint64_t bytes = 0, largest = 0;
    int is_heavy = 0;
    uint32_t k;
    s->total = s->greatest = s->heaviest = s->before = 0;
    for (k = 0; k < s->parts; k++) {
        const tezgumi_mpi_summary *t = &s->told[s->order[k]];
        if (s->order[k] == s->rank) s->before = s->total;
        is_heavy = is_heavy || t->load > INT64_MAX - s->total;
        if (!is_heavy) s->total += t->load;
        if (t->load > s->heaviest) s->heaviest = t->load;
        if (t->greatest > s->greatest) s->greatest = t->greatest;
        if (t->largest > largest) largest = t->largest;
        bytes += t->bytes;
    }
    if (largest > TEZGUMI_MPI_BYTES) return tezgumi_mpi_broken(TEZGUMI_MPI_RULE_BYTES);
    if (bytes > TEZGUMI_MPI_TOTAL_BYTES) return tezgumi_mpi_broken(TEZGUMI_MPI_RULE_TOTAL_BYTES);
    return is_heavy ? tezgumi_mpi_refusal(TEZGUMI_BAD_LOAD, TEZGUMI_MPI_RULE_TOTAL_LOAD) : TEZGUMI_OK;
}

/* Tells the report of an element that has led to this refusal, if this rank holds one. */
static int blame(tezgumi_mpi_search *s, int status)
{
    uint32_t i;
    for (i = 0; i < s->part->count; i++) {
        if (tezgumi_mpi_status_of(status) == TEZGUMI_BAD_INPUT ? s->part->bytes[i] > TEZGUMI_MPI_BYTES : s->part->loads[i] == s->greatest) break;
    }
    if (i == s->part->count) return tezgumi_mpi_agree(s->comm, tezgumi_mpi_outcome_of(TEZGUMI_OK, 0), 0, s->report);
    return tezgumi_mpi_agree(s->comm, tezgumi_mpi_outcome_of(status, s->part->first + i), 0, s->report);
}

/* Whether all ranks have the same options, and these are in order. */
static int compare_options(tezgumi_mpi_search *s)
{
    uint32_t r;
    for (r = 0; r < s->ranks; r++) {
        const uint64_t told = s->told[r].options;
        if (told == NO_TOLERANCE) return refuse(s, tezgumi_mpi_broken(TEZGUMI_MPI_RULE_TOLERANCE), (int)r, 0);
        if (told == REFINES) return refuse(s, tezgumi_mpi_broken(TEZGUMI_MPI_RULE_REFINE), (int)r, 0);
    }
    for (r = 1; r < s->ranks; r++)
        if (s->told[r].options != s->told[0].options) return TEZGUMI_MPI_DISAGREE;
    return TEZGUMI_OK;
}

int tezgumi_mpi_learn_parts(tezgumi_mpi_search *s)
{
    const int words = sizeof(tezgumi_mpi_summary) / sizeof(uint64_t);
    tezgumi_mpi_summary own;
    int status;
    sum_up(s->part, s->options, &own);
    if (MPI_Allgather(&own, words, MPI_UINT64_T, s->told, words, MPI_UINT64_T, s->comm) != MPI_SUCCESS)
        return TEZGUMI_MPI_ERROR;
    sort_parts(s);
    status = join_parts(s);
    if (status != TEZGUMI_OK) return status;
    find_neighbours(s);
    status = add_up(s);
    if (status != TEZGUMI_OK) {
        blame(s, status);
        return status;
    }
    return compare_options(s);
}

uint64_t tezgumi_mpi_enough(const tezgumi_mpi_search *s)
{
    return 256 * (uint64_t)s->ranks + s->layout->n / (8 * (uint64_t)s->ranks);
}
