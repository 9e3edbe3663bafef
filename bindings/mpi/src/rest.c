/* What a rank holds after a callback has ended a move of parts, so that the move goes on with these elements. */
#include "internal.h"

/* Elements first .. end - 1, and of each whether this rank holds it and has not named it yet. */
typedef struct {
    uint64_t first, end;
    unsigned char *held;
} range;

static int has(const range *r, uint64_t index)
{
    return r->first <= index && index < r->end;
}

/* Writes into the range what it has in common with begin .. end - 1, of that the first so many elements. */
static void write(range *r, uint64_t begin, uint64_t end, uint64_t most, unsigned char held)
{
    const uint64_t from = tezgumi_mpi_later(r->first, begin), to = tezgumi_mpi_earlier(tezgumi_mpi_earlier(r->end, end), from + most);
    if (from < to) memset(r->held + (from - r->first), held, (size_t)(to - from));
}

/* Finds what this rank holds: of its old range what has not gone, and of its new one what has come. */
static void find_held(const tezgumi_mpi_layout *l, uint32_t rank, range *before, range *after)
{
    uint32_t b, r;
    write(before, before->first, before->end, UINT32_MAX, 1);
    for (b = 0; b < l->ranks; b++)
        if (l->names[b] != rank) write(before, l->cuts[b], l->cuts[b + 1], l->sent[l->names[b]], 0);
    for (r = 0; r < l->ranks; r++)
        if (r != rank) write(after, l->firsts[r], (uint64_t)l->firsts[r] + l->counts[r], l->received[r], 1);
}

/* The first element that is held and was not named, or the end of the range. */
static uint64_t first_held(const range *r)
{
    uint64_t i = r->first;
    while (i < r->end && !r->held[i - r->first]) i++;
    return i;
}

/* Whether the elements are those that this rank holds: notes the sizes of those of its old range. */
static tezgumi_mpi_outcome name_all(
    const tezgumi_mpi_element *mine, uint32_t count, range *before, range *after, uint32_t *bytes)
{
    uint32_t k;
    for (k = 0; k < count; k++) {
        const uint32_t i = mine[k].index;
        range *r = has(before, i) ? before : after;
        if (!has(r, i) || !r->held[i - r->first]) return tezgumi_mpi_outcome_of(TEZGUMI_MPI_BAD_INDEX, i);
        r->held[i - r->first] = 0;
        if (r == before) bytes[i - r->first] = mine[k].bytes;
    }
    if (first_held(before) < before->end) return tezgumi_mpi_outcome_of(TEZGUMI_MPI_BAD_INDEX, (uint32_t)first_held(before));
    if (first_held(after) < after->end) return tezgumi_mpi_outcome_of(TEZGUMI_MPI_BAD_INDEX, (uint32_t)first_held(after));
    return tezgumi_mpi_outcome_of(TEZGUMI_OK, 0);
}

tezgumi_mpi_outcome tezgumi_mpi_rest_of(const tezgumi_mpi_layout *layout, uint32_t rank, const tezgumi_mpi_element *mine,
    uint32_t count, tezgumi_mpi_part *part, void **room)
{
    const size_t held = layout->counts[rank];
    range before, after;
    uint32_t own = 0;
    size_t comes;
    while (layout->names[own] != rank) own++;
    comes = layout->cuts[own + 1] - layout->cuts[own];
    *room = calloc(held * (sizeof *part->bytes + 1) + comes + 1, 1);
    if (!*room) return tezgumi_mpi_outcome_of(TEZGUMI_NO_MEMORY, 0);
    before.first = layout->firsts[rank];
    before.end = before.first + held;
    before.held = (unsigned char *)*room + held * sizeof *part->bytes;
    after.first = layout->cuts[own];
    after.end = after.first + comes;
    after.held = before.held + held;
    find_held(layout, rank, &before, &after);
    part->loads = NULL;
    part->bytes = (const uint32_t *)*room;
    part->first = layout->firsts[rank];
    part->count = layout->counts[rank];
    return name_all(mine, count, &before, &after, (uint32_t *)*room);
}
