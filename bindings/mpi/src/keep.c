/* Cuts within a tolerance that keep the order of the ranks and move the fewest bytes. Only elements between two bounds of a cut
 * need be looked at (crates/merged_refinement): from the beginning of the chain on, each cut is at most as far behind the one before
 * it as a block within the limit reaches, or the present cut where that comes first; and from the end likewise. Nor need those be that
 * no cut within the limit reaches, as the same walks show where only the limit ends a block. What is left of each cut are runs of one
 * element in the merged chain, from which every rank finds the cuts. The export checks bounds, reaches and runs, so that wrong
 * ones are refused. */
#include "internal.h"

enum { LISTS = 6, WINDOWS = 7 }; /* of marks, and of windows for each cut */

/* Cuts, each list one more than ranks: the present ones, their bounds, the places that they reach, and the new ones. Elements at
 * first, and later runs. And windows. */
typedef struct {
    uint32_t *present, *near, *last, *far, *first, *cuts;
    uint32_t *lower, *upper;
    uint64_t *pairs;
    void *room;
} marks;

static int marks_room(marks *m, size_t count)
{
    m->room = calloc(count, LISTS * sizeof *m->present + WINDOWS * (sizeof *m->pairs + 2 * sizeof *m->lower));
    if (!m->room) return TEZGUMI_NO_MEMORY;
    m->pairs = (uint64_t *)m->room;
    m->present = (uint32_t *)(m->pairs + WINDOWS * count);
    m->near = m->present + count;
    m->last = m->near + count;
    m->far = m->last + count;
    m->first = m->far + count;
    m->cuts = m->first + count;
    m->lower = m->cuts + count;
    m->upper = m->lower + WINDOWS * count;
    return TEZGUMI_OK;
}

uint64_t tezgumi_mpi_limit(const tezgumi_mpi_options *options, uint64_t least)
{
    const uint64_t thousandths = (uint64_t)(options->tolerance * 1000 + 0.5);
    return least + least / 1000 * thousandths + least % 1000 * thousandths / 1000;
}

/* A walk between two parts: how many blocks are done, and the load of the next one so far. */
typedef struct {
    uint64_t blocks, load;
} walk;

/* Where a walk from the beginning ends its blocks: at the present cuts too, if these are given. */
typedef struct {
    const uint32_t *present;
    uint32_t *ends;
} goal;

/* Ends blocks where the present cut behind them is reached. */
static void end_at(walk *w, const goal *g, uint32_t ranks, uint32_t place)
{
    while (g->present && w->blocks < ranks && g->present[w->blocks + 1] <= place) {
        g->ends[++w->blocks] = place;
        w->load = 0;
    }
}

/* Takes a walk over this part. */
static walk walk_on(const tezgumi_mpi_search *s, const goal *g, uint64_t limit, walk w)
{
    const tezgumi_mpi_part *part = s->part;
    uint32_t i;
    end_at(&w, g, s->ranks, part->first);
    for (i = 0; i < part->count && w.blocks < s->ranks; i++) {
        if (part->loads[i] > limit - w.load) {
            g->ends[++w.blocks] = part->first + i;
            w.load = 0;
        }
        w.load += part->loads[i];
    }
    end_at(&w, g, s->ranks, part->first + part->count);
    return w;
}

/* The same from the end of the chain, where the blocks that are done are the last ones. */
static void end_back_at(walk *w, const goal *g, uint32_t ranks, uint32_t place)
{
    while (g->present && w->blocks < ranks && g->present[ranks - w->blocks - 1] >= place) {
        g->ends[ranks - ++w->blocks] = place;
        w->load = 0;
    }
}

static walk walk_back(const tezgumi_mpi_search *s, const goal *g, uint64_t limit, walk w)
{
    const tezgumi_mpi_part *part = s->part;
    uint32_t i;
    end_back_at(&w, g, s->ranks, part->first + part->count);
    for (i = part->count; i > 0 && w.blocks < s->ranks; i--) {
        if (part->loads[i - 1] > limit - w.load) {
            g->ends[s->ranks - ++w.blocks] = part->first + i;
            w.load = 0;
        }
        w.load += part->loads[i - 1];
    }
    end_back_at(&w, g, s->ranks, part->first);
    return w;
}

/* One pass over all parts, with the walk for the bounds and that for what is reached. The walk for the bounds that begins with this
 * part is made before the message comes: it is the one, unless a block reaches from another rank to this one. */
static int pass(const tezgumi_mpi_search *s, const goal *bound, const goal *reach, uint64_t limit, MPI_Comm comm, int back)
{
    walk (*const go)(const tezgumi_mpi_search *, const goal *, uint64_t, walk) = back ? walk_back : walk_on;
    const int from = back ? s->next : s->previous, to = back ? s->previous : s->next;
    walk begun = {back ? s->ranks - 1 - s->rank : s->rank, 0}, behind, token[2] = {{0, 0}, {0, 0}};
    if (s->part->count == 0) return TEZGUMI_OK;
    behind = go(s, bound, limit, begun);
    if (from != MPI_PROC_NULL && MPI_Recv(token, 4, MPI_UINT64_T, from, 0, comm, MPI_STATUS_IGNORE) != MPI_SUCCESS)
        return TEZGUMI_MPI_ERROR;
    if (token[0].blocks != begun.blocks || token[0].load != begun.load) {
        for (; behind.blocks > begun.blocks; behind.blocks--)
            bound->ends[back ? s->ranks - behind.blocks : behind.blocks] = 0;
        behind = go(s, bound, limit, token[0]);
    }
    token[0] = behind;
    token[1] = go(s, reach, limit, token[1]);
    return MPI_Send(token, 4, MPI_UINT64_T, to, 0, comm) == MPI_SUCCESS ? TEZGUMI_OK : TEZGUMI_MPI_ERROR;
}

/* The bounds of all cuts, and the places that they reach. Each is known to one rank, and is 0 for the others. A block that no walk from
 * the beginning ends reaches the end of the chain; at the ends of the chain there is nothing to bound. */
static int find_bounds(const tezgumi_mpi_search *s, const marks *m, uint64_t limit, MPI_Comm comm)
{
    const goal near = {m->present, m->near}, last = {NULL, m->last}, far = {m->present, m->far}, first = {NULL, m->first};
    const size_t end = s->ranks;
    uint32_t r;
    for (r = 0; r < s->ranks; r++) m->present[r + 1] = m->present[r] + s->layout->counts[r];
    if (pass(s, &near, &last, limit, comm, 0) != TEZGUMI_OK || pass(s, &far, &first, limit, comm, 1) != TEZGUMI_OK)
        return TEZGUMI_MPI_ERROR;
    if (MPI_Allreduce(MPI_IN_PLACE, m->near, 4 * (int)(end + 1), MPI_UINT32_T, MPI_MAX, comm) != MPI_SUCCESS)
        return TEZGUMI_MPI_ERROR;
    m->near[end] = m->near[end - 1];
    m->far[0] = m->far[1];
    m->far[end] = m->first[end] = s->layout->n;
    if (end == 1) m->far[0] = s->layout->n;
    for (r = 1; r <= s->ranks; r++)
        if (m->last[r] == 0) m->last[r] = s->layout->n;
    return TEZGUMI_OK;
}

static int by_lower(const void *a, const void *b)
{
    const uint64_t x = *(const uint64_t *)a, y = *(const uint64_t *)b;
    return x < y ? -1 : x > y;
}

/* A window of these elements, if there are any. */
static size_t add(const marks *m, size_t count, uint32_t lower, uint32_t upper)
{
    if (lower > upper) return count;
    m->pairs[count] = (uint64_t)lower << 32 | upper;
    return count + 1;
}

/* The windows in order, and no two that overlap. */
static void find_windows(tezgumi_mpi_search *s, const marks *m)
{
    const uint32_t n = s->layout->n;
    tezgumi_mpi_windows *w = &s->windows;
    size_t count = 0, k;
    uint32_t b;
    for (b = 1; b < s->ranks; b++) {
        const uint32_t from = m->near[b] > m->first[b] ? m->near[b] : m->first[b], to = m->far[b] < m->last[b] ? m->far[b] : m->last[b];
        count = add(m, count, from, to);
        count = add(m, count, m->near[b], m->near[b]);
        count = add(m, count, m->far[b], m->far[b]);
        count = add(m, count, m->first[b] > 0 ? m->first[b] - 1 : 0, m->first[b]);
        count = add(m, count, m->last[b], m->last[b] < n ? m->last[b] + 1 : n);
    }
    qsort(m->pairs, count, sizeof *m->pairs, by_lower);
    w->lower = m->lower;
    w->upper = m->upper;
    w->count = 0;
    for (k = 0; k < count; k++) {
        const uint32_t lower = (uint32_t)(m->pairs[k] >> 32), upper = (uint32_t)m->pairs[k];
        if (w->count > 0 && lower <= w->upper[w->count - 1]) {
            if (upper > w->upper[w->count - 1]) w->upper[w->count - 1] = upper;
            continue;
        }
        w->lower[w->count] = lower;
        w->upper[w->count++] = upper;
    }
}

/* The bytes of runs, and where all runs start. */
typedef struct {
    uint64_t *own, *all;
    uint32_t *cuts, *starts;
    void *room;
} held_runs;

static int held_room(held_runs *h, size_t own, size_t all)
{
    h->room = malloc((own + all) * sizeof *h->own + (own + all + 2) * sizeof *h->cuts);
    if (!h->room) return TEZGUMI_NO_MEMORY;
    h->own = (uint64_t *)h->room;
    h->all = h->own + own;
    h->cuts = (uint32_t *)(h->all + all);
    h->starts = h->cuts + own + 1;
    return TEZGUMI_OK;
}

/* The bytes of this part's runs. */
static int hold(const tezgumi_mpi_search *s, const tezgumi_mpi_runs *own, const tezgumi_mpi_runs *all, held_runs *h)
{
    const tezgumi_mpi_part *part = s->part;
    const int status = held_room(h, own->count, all->count);
    if (status != TEZGUMI_OK) return status;
    h->starts[0] = 0;
    memcpy(h->starts + 1, all->ends, all->count * sizeof *h->starts);
    if (own->count == 0) return TEZGUMI_OK;
    h->cuts[0] = part->first;
    memcpy(h->cuts + 1, own->ends, own->count * sizeof *h->cuts);
    return tezgumi_mpi_inner(tezgumi_part_held(part->bytes, part->count, part->first, h->cuts, own->count + 1, h->own, own->count));
}

/* Puts in the place of elements the runs that start there. 0 where none starts at one of them. */
static int find_runs(const uint32_t *starts, size_t runs, uint32_t *places, size_t count)
{
    size_t k;
    for (k = 0; k < count; k++) {
        size_t low = 0, high = runs;
        while (low < high) {
            const size_t middle = low + (high - low) / 2;
            if (starts[middle] < places[k]) low = middle + 1;
            else high = middle;
        }
        if (starts[low] != places[k]) return 0;
        places[k] = (uint32_t)low;
    }
    return 1;
}

/* Finds the cuts by the runs of all parts. */
static int keep(tezgumi_mpi_search *s, marks *m, const tezgumi_mpi_runs *all, const held_runs *h, uint64_t limit)
{
    const size_t count = (size_t)s->ranks + 1;
    uint64_t load = 0;
    size_t b, run;
    int status;
    if (!find_runs(h->starts, all->count, m->present, (LISTS - 1) * count)) return TEZGUMI_MPI_WRONG_PLAN;
    status = tezgumi_mpi_inner(tezgumi_keep_order(all->loads, all->count, h->all, all->count, h->starts, all->count + 1,
        m->present, count, m->near, count, m->far, count, m->first, count, m->last, count, limit, m->cuts, count));
    if (status != TEZGUMI_OK) return status;
    s->report->max_load_after = 0;
    for (b = 0; b < s->ranks; b++, load = 0) {
        for (run = m->cuts[b]; run < m->cuts[b + 1]; run++) load += all->loads[run];
        s->report->max_load_after = tezgumi_mpi_later(s->report->max_load_after, load);
    }
    for (b = 0; b < count; b++) s->layout->cuts[b] = h->starts[m->cuts[b]];
    return TEZGUMI_OK;
}

/* What this part has of each block. */
static int weigh(const tezgumi_mpi_search *s)
{
    const tezgumi_mpi_part *part = s->part;
    const size_t ranks = s->ranks;
    memset(s->block_loads, 0, 2 * ranks * sizeof *s->block_loads);
    if (part->count == 0) return TEZGUMI_OK;
    return tezgumi_mpi_inner(tezgumi_part_loads(part->loads, part->count, part->first, s->ranks, s->layout->cuts, ranks + 1,
        s->stops, 0, s->block_loads, ranks, s->fence_loads, ranks));
}

/* Checks by the loads of the blocks, summed up over all ranks, that the greatest is what was found, and within the limit. */
static int check(tezgumi_mpi_search *s, uint64_t limit)
{
    double since = MPI_Wtime();
    const uint64_t print = tezgumi_mpi_fingerprint(TEZGUMI_MPI_FINGERPRINT, s->layout->cuts, (size_t)s->ranks + 1);
    uint64_t most = 0;
    uint32_t b;
    int status = tezgumi_mpi_agree(s->comm, tezgumi_mpi_outcome_of(weigh(s), 0), print, s->report);
    if (status == TEZGUMI_OK
        && MPI_Allreduce(MPI_IN_PLACE, s->block_loads, (int)s->ranks, MPI_UINT64_T, MPI_SUM, s->comm) != MPI_SUCCESS)
        status = TEZGUMI_MPI_ERROR;
    for (b = 0; b < s->ranks; b++) most = tezgumi_mpi_later(most, s->block_loads[b]);
    if (status == TEZGUMI_OK && (most > limit || most != s->report->max_load_after)) status = TEZGUMI_MPI_WRONG_PLAN;
    s->report->check_seconds += tezgumi_mpi_lap(&since);
    return status;
}

/* Gathers the runs between the bounds, with their bytes, and finds the cuts. */
static int keep_by_runs(tezgumi_mpi_search *s, marks *m, uint64_t limit)
{
    tezgumi_mpi_runs own = {0, NULL, NULL, NULL}, all = {0, NULL, NULL, NULL};
    held_runs held = {NULL, NULL, NULL, NULL, NULL};
    double since;
    int status;
    find_windows(s, m);
    status = tezgumi_mpi_gather_runs(s, &own, &all);
    since = MPI_Wtime();
    if (status == TEZGUMI_OK)
        status = tezgumi_mpi_agree(s->comm, tezgumi_mpi_outcome_of(hold(s, &own, &all, &held), 0), 0, s->report);
    if (status == TEZGUMI_OK && MPI_Allgatherv(held.own, (int)own.count, MPI_UINT64_T, held.all, s->counts, s->starts, MPI_UINT64_T,
            s->comm) != MPI_SUCCESS)
        status = TEZGUMI_MPI_ERROR;
    s->report->gather_seconds += tezgumi_mpi_lap(&since);
    if (status == TEZGUMI_OK)
        status = tezgumi_mpi_agree(s->comm, tezgumi_mpi_outcome_of(keep(s, m, &all, &held, limit), 0), 0, s->report);
    s->report->plan_seconds += tezgumi_mpi_lap(&since);
    free(held.room);
    free(own.room);
    free(all.room);
    return status;
}

int tezgumi_mpi_keep_cuts(tezgumi_mpi_search *s)
{
    const uint64_t limit = tezgumi_mpi_limit(s->options, s->bottleneck);
    double since = MPI_Wtime();
    marks m;
    MPI_Comm own;
    int status;
    memset(&m, 0, sizeof m);
    status = tezgumi_mpi_agree(s->comm, tezgumi_mpi_outcome_of(marks_room(&m, (size_t)s->ranks + 1), 0), 0, s->report);
    if (status == TEZGUMI_OK && MPI_Comm_dup(s->comm, &own) != MPI_SUCCESS) status = TEZGUMI_MPI_ERROR;
    else if (status == TEZGUMI_OK) {
        status = find_bounds(s, &m, limit, own);
        MPI_Comm_free(&own);
    }
    s->report->walk_seconds += tezgumi_mpi_lap(&since);
    if (status == TEZGUMI_OK) status = keep_by_runs(s, &m, limit);
    free(m.room);
    if (status != TEZGUMI_OK || s->options->skip_check) return status;
    return check(s, limit);
}
