/* The exchange of elements between parts: each round is done as a whole or not at all. Who sends which elements to whom follows from
 * the old and the new range of each rank. In a round each rank offers the next elements that leave it, as many as fit into the
 * room, and tells their sizes; each takes of what it is offered as many as fit into its own room, in order of index. So the
 * element of the least index goes in any case. */
#include "internal.h"

enum { MOST_OFFERED = 1 << 24, MOST_TOLD = 1 << 30 }; /* elements of a rank in a round, and of all ranks: an int counts these */
enum { BYTES, LARGEST, ELEMENTS, TOLD };              /* what a rank tells another of all that will come from it */

/* What leaves this rank, or what arrives. Lists have an entry for each rank. */
typedef struct {
    tezgumi_mpi_pieces pieces;
    uint32_t *offered;    /* elements that are offered in this round, */
    uint32_t *taken;      /* and those of them that go */
    int *told, *told_at;  /* of the list of sizes what is for each peer, and where it begins */
    int *bytes, *starts;  /* and of the buffer */
    uint32_t *sizes;      /* of what is offered, by piece */
    unsigned char *buffer;
    uint64_t left_bytes;  /* of the elements that are still to go, */
    uint64_t largest;     /* and those of the largest */
} side;

/* A move under way. */
typedef struct {
    MPI_Comm comm;
    uint32_t rank, ranks;
    const tezgumi_mpi_part *part;
    tezgumi_mpi_layout *layout;
    const tezgumi_mpi_callbacks *callbacks;
    size_t room;
    side out, in;
    uint64_t print;    /* a fingerprint of who sends what to whom */
    uint64_t *totals;  /* of what each rank sends here: bytes, those of the largest, and how many elements; and so of what goes to each */
    uint32_t unpacked; /* elements that were unpacked in this round */
    void *lists, *buffers;
} mover;

/* Room for the lists of one side. */
static unsigned char *lay_lists(side *d, size_t ranks, unsigned char *at)
{
    d->pieces.list = (tezgumi_mpi_piece *)at;
    d->offered = (uint32_t *)(d->pieces.list + ranks);
    d->taken = d->offered + ranks;
    d->told = (int *)(d->taken + ranks);
    d->told_at = d->told + ranks;
    d->bytes = d->told_at + ranks;
    d->starts = d->bytes + ranks;
    return (unsigned char *)(d->starts + ranks);
}

static int get_lists(mover *m)
{
    const size_t ranks = m->ranks, each = sizeof(tezgumi_mpi_piece) + 2 * sizeof(uint32_t) + 4 * sizeof(int);
    m->lists = malloc(ranks * (2 * TOLD * sizeof *m->totals + 2 * each));
    if (!m->lists) return TEZGUMI_NO_MEMORY;
    m->totals = (uint64_t *)m->lists;
    lay_lists(&m->in, ranks, lay_lists(&m->out, ranks, (unsigned char *)(m->totals + 2 * TOLD * ranks)));
    return TEZGUMI_OK;
}

/* Whether all that is given is there, and the part is what the layout says. */
static tezgumi_mpi_outcome refusal(const mover *m)
{
    const tezgumi_mpi_part *part = m->part;
    const tezgumi_mpi_layout *l = m->layout;
    uint32_t i;
    if (!l || !part) return tezgumi_mpi_outcome_of(tezgumi_mpi_broken(TEZGUMI_MPI_RULE_NULL), 0);
    if (!l->room || l->ranks != m->ranks) return tezgumi_mpi_outcome_of(tezgumi_mpi_broken(TEZGUMI_MPI_RULE_LAYOUT), 0);
    if (!m->callbacks || !m->callbacks->pack || !m->callbacks->unpack)
        return tezgumi_mpi_outcome_of(tezgumi_mpi_broken(TEZGUMI_MPI_RULE_CALLBACKS), 0);
    if (part->count != l->counts[m->rank] || (part->count > 0 && part->first != l->firsts[m->rank]))
        return tezgumi_mpi_outcome_of(tezgumi_mpi_broken(TEZGUMI_MPI_RULE_PART), 0);
    if (part->count > 0 && !part->bytes) return tezgumi_mpi_outcome_of(tezgumi_mpi_broken(TEZGUMI_MPI_RULE_NULL), 0);
    for (i = 0; i < part->count; i++)
        if (part->bytes[i] > TEZGUMI_MPI_BYTES) return tezgumi_mpi_outcome_of(tezgumi_mpi_broken(TEZGUMI_MPI_RULE_BYTES), part->first + i);
    return tezgumi_mpi_outcome_of(TEZGUMI_OK, 0);
}

/* Whether what is sent and received so far, if anything is, went by the same cuts and names. */
static int goes_on(const tezgumi_mpi_layout *l)
{
    return l->move == 0 || l->move == tezgumi_mpi_print_of_move(l);
}

int tezgumi_mpi_is_under_way(const tezgumi_mpi_layout *layout, uint32_t ranks)
{
    return layout && layout->room && layout->ranks == ranks && layout->move == tezgumi_mpi_print_of_move(layout);
}

/* What all ranks have to have in common: who sends what to whom, and the room. */
static uint64_t common_print(const mover *m)
{
    const uint32_t room = (uint32_t)m->room;
    return tezgumi_mpi_fingerprint(m->print, &room, 1);
}

static size_t size_at(const mover *m, uint32_t element)
{
    return tezgumi_mpi_padded(m->part->bytes[element - m->part->first]);
}

/* Tells each rank how much will come to it in all, and how large one element may be. */
static int tell_totals(mover *m)
{
    uint64_t *told = m->totals + TOLD * (size_t)m->ranks;
    uint32_t k, r, e;
    memset(told, 0, TOLD * (size_t)m->ranks * sizeof *told);
    for (k = 0; k < m->out.pieces.count; k++) {
        const tezgumi_mpi_piece *p = &m->out.pieces.list[k];
        uint64_t *to = told + TOLD * (size_t)p->peer;
        for (e = p->next; e < p->end; e++) {
            to[BYTES] += size_at(m, e);
            to[LARGEST] = tezgumi_mpi_later(to[LARGEST], size_at(m, e));
        }
        to[ELEMENTS] = p->end - p->next;
        m->out.left_bytes += to[BYTES];
        m->out.largest = tezgumi_mpi_later(m->out.largest, to[LARGEST]);
    }
    if (MPI_Alltoall(told, TOLD, MPI_UINT64_T, m->totals, TOLD, MPI_UINT64_T, m->comm) != MPI_SUCCESS) return TEZGUMI_MPI_ERROR;
    for (r = 0; r < m->ranks; r++) {
        const uint64_t *from = m->totals + TOLD * (size_t)r;
        m->in.left_bytes += from[BYTES];
        m->in.largest = tezgumi_mpi_later(m->in.largest, from[LARGEST]);
    }
    return TEZGUMI_OK;
}

/* Whether each rank sends as many elements as are to come here: what has gone there has come here. */
static int are_expected(const mover *m)
{
    uint64_t all = 0;
    uint32_t k, r;
    for (k = 0; k < m->in.pieces.count; k++) {
        const tezgumi_mpi_piece *p = &m->in.pieces.list[k];
        if (m->totals[TOLD * (size_t)p->peer + ELEMENTS] != p->end - p->next) return 0;
    }
    for (r = 0; r < m->ranks; r++) all += m->totals[TOLD * (size_t)r + ELEMENTS];
    return all == m->in.pieces.left;
}

/* How many elements a rank offers in a round at most. */
static uint64_t most_offered(const mover *m)
{
    return tezgumi_mpi_earlier(MOST_OFFERED, MOST_TOLD / m->ranks);
}

/* The bytes of a side in its greatest round, rounded up so that the other buffer is aligned too. */
static size_t buffer_of(const mover *m, const side *d)
{
    return ((size_t)tezgumi_mpi_earlier(d->left_bytes, tezgumi_mpi_later(m->room, d->largest)) + 15) / 16 * 16;
}

/* Gets all the memory that the rounds will need, so that afterwards only a callback can fail. */
static int get_buffers(mover *m)
{
    const size_t out = buffer_of(m, &m->out), in = buffer_of(m, &m->in);
    const size_t offers = (size_t)tezgumi_mpi_earlier(m->out.pieces.left, most_offered(m));
    const size_t offered = (size_t)tezgumi_mpi_earlier(m->in.pieces.left, m->ranks * most_offered(m));
    m->buffers = malloc(out + in + (offers + offered) * sizeof(uint32_t) + 16); /* not null for no element of 0 bytes */
    if (!m->buffers) return TEZGUMI_NO_MEMORY;
    m->out.buffer = (unsigned char *)m->buffers;
    m->in.buffer = m->out.buffer + out;
    m->out.sizes = (uint32_t *)(m->in.buffer + in);
    m->in.sizes = m->out.sizes + offers;
    return TEZGUMI_OK;
}

/* Offers the next elements of a piece. 0 where one does not fit any more. */
static int offer_of(mover *m, const tezgumi_mpi_piece *p, size_t *used, uint64_t *count)
{
    uint32_t e;
    for (e = p->next; e < p->end; e++) {
        const size_t bytes = size_at(m, e);
        if (*count == most_offered(m) || tezgumi_mpi_is_full(*used, bytes, m->room)) return 0;
        *used += bytes;
        m->out.sizes[(*count)++] = m->part->bytes[e - m->part->first];
        m->out.offered[p->peer]++;
    }
    return 1;
}

/* Offers the next elements that leave this rank, as many as fit. */
static void offer(mover *m)
{
    size_t used = 0;
    uint64_t count = 0;
    uint32_t k = 0;
    memset(m->out.offered, 0, m->ranks * sizeof *m->out.offered);
    while (k < m->out.pieces.count && offer_of(m, &m->out.pieces.list[k], &used, &count)) k++;
}

/* Lets the sizes that are offered stand piece by piece. */
static void lay_sizes(side *d)
{
    uint32_t k;
    int at = 0;
    for (k = 0; k < d->pieces.count; k++) {
        const uint32_t peer = d->pieces.list[k].peer;
        d->told[peer] = (int)d->offered[peer];
        d->told_at[peer] = at;
        at += d->told[peer];
    }
}

/* Tells each rank the sizes of what is offered to it. */
static int tell_offers(mover *m)
{
    if (MPI_Alltoall(m->out.offered, 1, MPI_UINT32_T, m->in.offered, 1, MPI_UINT32_T, m->comm) != MPI_SUCCESS) return TEZGUMI_MPI_ERROR;
    lay_sizes(&m->out);
    lay_sizes(&m->in);
    if (MPI_Alltoallv(m->out.sizes, m->out.told, m->out.told_at, MPI_UINT32_T, m->in.sizes, m->in.told, m->in.told_at, MPI_UINT32_T,
            m->comm) != MPI_SUCCESS)
        return TEZGUMI_MPI_ERROR;
    return TEZGUMI_OK;
}

/* Takes of what is offered here as many elements as fit, in order of index, and tells the ranks that offer them. */
static int take(mover *m)
{
    side *in = &m->in;
    size_t used = 0;
    uint32_t k, count;
    int fits = 1;
    memset(in->taken, 0, m->ranks * sizeof *in->taken);
    for (k = 0; k < in->pieces.count && fits; k++) {
        const uint32_t peer = in->pieces.list[k].peer;
        const uint32_t *sizes = in->sizes + in->told_at[peer];
        for (count = 0; count < in->offered[peer]; count++) {
            fits = !tezgumi_mpi_is_full(used, tezgumi_mpi_padded(sizes[count]), m->room);
            if (!fits) break;
            used += tezgumi_mpi_padded(sizes[count]);
        }
        in->taken[peer] = count;
    }
    if (MPI_Alltoall(in->taken, 1, MPI_UINT32_T, m->out.taken, 1, MPI_UINT32_T, m->comm) != MPI_SUCCESS) return TEZGUMI_MPI_ERROR;
    return TEZGUMI_OK;
}

/* Lets the elements that go stand in the buffer, piece by piece. */
static void lay_out(side *d)
{
    uint32_t k, i;
    int at = 0;
    for (k = 0; k < d->pieces.count; k++) {
        const uint32_t peer = d->pieces.list[k].peer;
        d->starts[peer] = at;
        for (i = 0; i < d->taken[peer]; i++) at += (int)tezgumi_mpi_padded(d->sizes[d->told_at[peer] + (int)i]);
        d->bytes[peer] = at - d->starts[peer];
    }
}

/* Packs what leaves in this round. */
static tezgumi_mpi_outcome pack_all(mover *m)
{
    const tezgumi_mpi_callbacks *call = m->callbacks;
    unsigned char *to = m->out.buffer;
    uint32_t k, e;
    for (k = 0; k < m->out.pieces.count; k++) {
        const tezgumi_mpi_piece *p = &m->out.pieces.list[k];
        for (e = p->next; e < p->next + m->out.taken[p->peer]; e++) {
            const uint32_t bytes = m->part->bytes[e - m->part->first];
            unsigned char *pad = to + bytes;
            memset(pad, 0, tezgumi_mpi_padded(bytes) - bytes);
            if (call->pack(call->app, e, to, bytes)) return tezgumi_mpi_outcome_of(TEZGUMI_MPI_CALLBACK, e);
            to += tezgumi_mpi_padded(bytes);
        }
    }
    return tezgumi_mpi_outcome_of(TEZGUMI_OK, 0);
}

/* Unpacks what has arrived. */
static tezgumi_mpi_outcome unpack_all(mover *m)
{
    const tezgumi_mpi_callbacks *call = m->callbacks;
    const unsigned char *from = m->in.buffer;
    uint32_t k, i;
    m->unpacked = 0;
    for (k = 0; k < m->in.pieces.count; k++) {
        const tezgumi_mpi_piece *p = &m->in.pieces.list[k];
        const uint32_t *sizes = m->in.sizes + m->in.told_at[p->peer];
        for (i = 0; i < m->in.taken[p->peer]; i++) {
            if (call->unpack(call->app, p->next + i, from, sizes[i])) return tezgumi_mpi_outcome_of(TEZGUMI_MPI_CALLBACK, p->next + i);
            from += tezgumi_mpi_padded(sizes[i]);
            m->unpacked++;
        }
    }
    return tezgumi_mpi_outcome_of(TEZGUMI_OK, 0);
}

/* Some element could not be unpacked somewhere: all that were unpacked here are dropped, for they are still where they
 * came from. */
static void undo(mover *m)
{
    uint32_t k, i;
    for (k = 0; m->callbacks->drop && k < m->in.pieces.count; k++) {
        const tezgumi_mpi_piece *p = &m->in.pieces.list[k];
        for (i = 0; i < m->in.taken[p->peer] && m->unpacked > 0; i++, m->unpacked--) m->callbacks->drop(m->callbacks->app, p->next + i);
    }
}

/* All have arrived: what has left this rank is dropped, and both sides go on behind it. */
static int finish(mover *m, uint64_t *left, tezgumi_mpi_report *report)
{
    uint64_t gone[2] = {0}; /* elements, and their bytes */
    uint32_t k, e;
    m->layout->move = m->print;
    for (k = 0; k < m->out.pieces.count; k++) {
        tezgumi_mpi_piece *p = &m->out.pieces.list[k];
        const uint32_t taken = m->out.taken[p->peer];
        for (e = p->next; e < p->next + taken; e++) {
            if (m->callbacks->drop) m->callbacks->drop(m->callbacks->app, e);
            gone[1] += m->part->bytes[e - m->part->first];
        }
        p->next += taken;
        m->layout->sent[p->peer] += taken;
        gone[0] += taken;
    }
    for (k = 0; k < m->in.pieces.count; k++) {
        tezgumi_mpi_piece *p = &m->in.pieces.list[k];
        p->next += m->in.taken[p->peer];
        m->layout->received[p->peer] += m->in.taken[p->peer];
    }
    if (MPI_Allreduce(MPI_IN_PLACE, gone, 2, MPI_UINT64_T, MPI_SUM, m->comm) != MPI_SUCCESS) return TEZGUMI_MPI_ERROR;
    report->elements_moved += (uint32_t)gone[0];
    report->bytes_moved += gone[1];
    report->exchanges++;
    *left -= gone[0];
    return TEZGUMI_OK;
}

/* One round. */
static int exchange(mover *m, uint64_t *left, tezgumi_mpi_report *report)
{
    int status;
    offer(m);
    status = tell_offers(m);
    if (status == TEZGUMI_OK) status = take(m);
    if (status != TEZGUMI_OK) return status;
    lay_out(&m->out);
    lay_out(&m->in);
    status = tezgumi_mpi_agree(m->comm, pack_all(m), 0, report);
    if (status != TEZGUMI_OK) return status;
    if (MPI_Alltoallv(m->out.buffer, m->out.bytes, m->out.starts, MPI_BYTE, m->in.buffer, m->in.bytes, m->in.starts, MPI_BYTE,
            m->comm) != MPI_SUCCESS)
        return TEZGUMI_MPI_ERROR;
    status = tezgumi_mpi_agree(m->comm, unpack_all(m), 0, report);
    if (status == TEZGUMI_OK) return finish(m, left, report);
    undo(m);
    return status;
}

/* Learns what goes where, and gets all memory. */
static int prepare(mover *m, uint64_t *left, tezgumi_mpi_report *report)
{
    int status;
    memset(m->out.told, 0, 4 * m->ranks * sizeof(int));
    memset(m->in.told, 0, 4 * m->ranks * sizeof(int));
    tezgumi_mpi_find_pieces(m->layout, m->rank, &m->out.pieces, &m->in.pieces);
    *left = m->out.pieces.left;
    if (MPI_Allreduce(MPI_IN_PLACE, left, 1, MPI_UINT64_T, MPI_SUM, m->comm) != MPI_SUCCESS) return TEZGUMI_MPI_ERROR;
    status = tell_totals(m);
    if (status != TEZGUMI_OK) return status;
    status = are_expected(m) ? get_buffers(m) : TEZGUMI_MPI_DISAGREE;
    return tezgumi_mpi_agree(m->comm, tezgumi_mpi_outcome_of(status, 0), 0, report);
}

/* The whole of it, but for the report's time. */
static int move(mover *m, tezgumi_mpi_report *report)
{
    uint64_t left = 0;
    tezgumi_mpi_outcome outcome = refusal(m);
    int status;
    if (outcome.status == TEZGUMI_OK) outcome.status = get_lists(m);
    if (outcome.status == TEZGUMI_OK && !tezgumi_mpi_is_decision(m->layout, m->out.offered))
        outcome.status = tezgumi_mpi_broken(TEZGUMI_MPI_RULE_CUTS);
    if (outcome.status == TEZGUMI_OK && !goes_on(m->layout)) outcome.status = tezgumi_mpi_broken(TEZGUMI_MPI_RULE_LAYOUT);
    if (outcome.status == TEZGUMI_OK) m->print = tezgumi_mpi_print_of_move(m->layout);
    status = tezgumi_mpi_agree(m->comm, outcome, outcome.status == TEZGUMI_OK ? common_print(m) : 0, report);
    report->elements_moved = report->exchanges = 0;
    report->bytes_moved = 0;
    if (status == TEZGUMI_OK) status = prepare(m, &left, report);
    while (status == TEZGUMI_OK && left > 0) status = exchange(m, &left, report);
    if (status == TEZGUMI_OK) tezgumi_mpi_settle(m->layout);
    free(m->lists);
    free(m->buffers);
    return status;
}

int tezgumi_mpi_move_part(MPI_Comm comm, const tezgumi_mpi_part *part, tezgumi_mpi_layout *layout,
    const tezgumi_mpi_callbacks *callbacks, const tezgumi_mpi_options *options, tezgumi_mpi_report *report)
{
    const double begin = MPI_Wtime();
    tezgumi_mpi_report unread;
    mover m;
    int rank, ranks, groups = 0, status;
    if (!report) report = &unread;
    if (MPI_Comm_test_inter(comm, &groups) != MPI_SUCCESS || MPI_Comm_size(comm, &ranks) != MPI_SUCCESS
        || MPI_Comm_rank(comm, &rank) != MPI_SUCCESS)
        return TEZGUMI_MPI_ERROR;
    if (groups) return tezgumi_mpi_told(tezgumi_mpi_broken(TEZGUMI_MPI_RULE_GROUPS), report);
    memset(&m, 0, sizeof m);
    m.comm = comm;
    m.rank = (uint32_t)rank;
    m.ranks = (uint32_t)ranks;
    m.part = part;
    m.layout = layout;
    m.callbacks = callbacks;
    m.room = tezgumi_mpi_room_of(options);
    status = move(&m, report);
    report->move_seconds = MPI_Wtime() - begin;
    return status;
}
