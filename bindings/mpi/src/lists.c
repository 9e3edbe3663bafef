/* What one rank imports and exports by a decision, element by element. */
#include "internal.h"

void tezgumi_mpi_lists_free(tezgumi_mpi_lists *lists)
{
    if (!lists) return;
    free(lists->room);
    memset(lists, 0, sizeof *lists);
}

/* Writes the elements of all pieces, and of each the rank at the other end. */
static void write_all(const tezgumi_mpi_pieces *pieces, uint32_t *indices, uint32_t *ranks)
{
    uint32_t k, e, at = 0;
    for (k = 0; k < pieces->count; k++) {
        const tezgumi_mpi_piece *p = &pieces->list[k];
        for (e = p->next; e < p->end; e++) {
            indices[at] = e;
            ranks[at++] = p->peer;
        }
    }
}

/* Gets the room, and writes the lists. */
static int list_all(const tezgumi_mpi_pieces *in, const tezgumi_mpi_pieces *out, tezgumi_mpi_lists *lists)
{
    uint32_t *words;
    if (in->left > UINT32_MAX || out->left > UINT32_MAX) return TEZGUMI_BAD_INPUT;
    words = (uint32_t *)malloc((size_t)(2 * (in->left + out->left) + 1) * sizeof *words); /* not null for no element */
    if (!words) return TEZGUMI_NO_MEMORY;
    tezgumi_mpi_lists_free(lists);
    lists->room = words;
    lists->imports = (uint32_t)in->left;
    lists->exports = (uint32_t)out->left;
    lists->import_indices = words;
    lists->import_ranks = words + in->left;
    lists->export_indices = words + 2 * in->left;
    lists->export_ranks = lists->export_indices + out->left;
    write_all(in, lists->import_indices, lists->import_ranks);
    write_all(out, lists->export_indices, lists->export_ranks);
    return TEZGUMI_OK;
}

int tezgumi_mpi_lists_of(const tezgumi_mpi_layout *layout, int rank, tezgumi_mpi_lists *lists)
{
    tezgumi_mpi_pieces in, out;
    size_t ranks;
    int status = TEZGUMI_BAD_INPUT;
    if (!lists || !layout || !layout->room || rank < 0 || (uint32_t)rank >= layout->ranks) return TEZGUMI_BAD_INPUT;
    ranks = layout->ranks;
    out.list = (tezgumi_mpi_piece *)malloc(ranks * (2 * sizeof *out.list + sizeof(uint32_t)));
    if (!out.list) return TEZGUMI_NO_MEMORY;
    in.list = out.list + ranks;
    if (tezgumi_mpi_is_decision(layout, (uint32_t *)(in.list + ranks))) {
        tezgumi_mpi_find_pieces(layout, (uint32_t)rank, &out, &in);
        status = list_all(&in, &out, lists);
    }
    free(out.list);
    return status;
}
