/* Who sends which elements to whom, by the old and the new range of each rank. */
#include "internal.h"

int tezgumi_mpi_is_decision(const tezgumi_mpi_layout *l, uint32_t *marks)
{
    uint32_t b;
    if (l->cuts[0] != 0 || l->cuts[l->ranks] != l->n) return 0;
    memset(marks, 0, l->ranks * sizeof *marks);
    for (b = 0; b < l->ranks; b++)
        if (l->cuts[b] > l->cuts[b + 1] || l->names[b] >= l->ranks || marks[l->names[b]]++) return 0;
    return 1;
}

/* Adds what two ranges have in common, but for so many elements that have gone already. */
static void add_piece(tezgumi_mpi_pieces *d, uint32_t peer, uint64_t begin, uint64_t end, uint64_t gone)
{
    tezgumi_mpi_piece *p = &d->list[d->count];
    if (begin + gone >= end) return;
    p->peer = peer;
    p->next = (uint32_t)(begin + gone);
    p->end = (uint32_t)end;
    d->left += end - begin - gone;
    d->count++;
}

static int by_index(const void *a, const void *b)
{
    const tezgumi_mpi_piece *x = (const tezgumi_mpi_piece *)a, *y = (const tezgumi_mpi_piece *)b;
    return x->next < y->next ? -1 : x->next > y->next;
}

void tezgumi_mpi_find_pieces(
    const tezgumi_mpi_layout *l, uint32_t rank, tezgumi_mpi_pieces *out, tezgumi_mpi_pieces *in)
{
    const uint64_t first = l->firsts[rank], last = first + l->counts[rank];
    uint32_t b, r, own = 0;
    out->count = in->count = 0;
    out->left = in->left = 0;
    for (b = 0; b < l->ranks; b++) {
        const uint64_t begin = tezgumi_mpi_later(first, l->cuts[b]), end = tezgumi_mpi_earlier(last, l->cuts[b + 1]);
        if (l->names[b] == rank) own = b;
        else add_piece(out, l->names[b], begin, end, l->sent[l->names[b]]);
    }
    for (r = 0; r < l->ranks; r++) {
        if (r == rank) continue;
        add_piece(in, r, tezgumi_mpi_later(l->firsts[r], l->cuts[own]),
            tezgumi_mpi_earlier((uint64_t)l->firsts[r] + l->counts[r], l->cuts[own + 1]), l->received[r]);
    }
    qsort(in->list, in->count, sizeof *in->list, by_index);
}

uint64_t tezgumi_mpi_print_of_move(const tezgumi_mpi_layout *l)
{
    uint64_t print = tezgumi_mpi_fingerprint(TEZGUMI_MPI_FINGERPRINT, &l->n, 1);
    print = tezgumi_mpi_fingerprint(print, l->firsts, l->ranks);
    print = tezgumi_mpi_fingerprint(print, l->counts, l->ranks);
    print = tezgumi_mpi_fingerprint(print, l->names, l->ranks);
    return tezgumi_mpi_fingerprint(print, l->cuts, (size_t)l->ranks + 1) | 1;
}

void tezgumi_mpi_settle(tezgumi_mpi_layout *l)
{
    uint32_t b;
    for (b = 0; b < l->ranks; b++) {
        const uint32_t count = l->cuts[b + 1] - l->cuts[b];
        l->firsts[l->names[b]] = count ? l->cuts[b] : 0;
        l->counts[l->names[b]] = count;
    }
    memset(l->sent, 0, l->ranks * sizeof *l->sent);
    memset(l->received, 0, l->ranks * sizeof *l->received);
    l->move = 0;
}
