/* The exchange of elements that are plain arrays: what leaves a rank is copied from its old arrays, and what comes to it into new
 * ones, so that nothing is lost whatever happens. In a round each rank offers the next elements that leave it, and takes of what it is
 * offered, as many as fit into the room. So the element of the least index goes in any case. */
#include "internal.h"

/* What leaves this rank, or what arrives. Lists have an entry for each rank. */
typedef struct {
    tezgumi_mpi_pieces pieces;
    uint32_t *offered;   /* elements that are offered in this round, */
    uint32_t *taken;     /* and those of them that go */
    int *bytes, *starts; /* of the buffer */
    unsigned char *buffer;
} side;

/* A move under way. */
typedef struct {
    MPI_Comm comm;
    uint32_t rank, ranks;
    tezgumi_mpi_layout *layout;
    const tezgumi_mpi_field *fields;
    uint32_t count;             /* fields */
    size_t room, size;          /* of an exchange, and of an element */
    uint32_t most;              /* elements that a rank sends in a round, and receives */
    uint32_t first, new_first;  /* of the elements that this rank holds, and of those that it is to hold, */
    uint32_t held, to_be_held;  /* and how many these are */
    side out, in;
    uint64_t print; /* a fingerprint of who sends what to whom */
    void *lists, *buffers;
} mover;

int tezgumi_mpi_new_range(const tezgumi_mpi_layout *layout, int rank, uint32_t *first, uint32_t *end)
{
    uint32_t b;
    *first = *end = 0;
    if (!layout) return 0;
    for (b = 0; b < layout->ranks; b++) {
        if (layout->names[b] != (uint32_t)rank) continue;
        *first = layout->cuts[b];
        *end = layout->cuts[b + 1];
        return 1;
    }
    return 0;
}

/* Whether an array of so many numbers is there, each at a place of its own. */
static int is_array(const void *numbers, size_t stride, size_t bytes, uint32_t count)
{
    if (count == 0 || bytes == 0) return 1;
    return numbers && (count == 1 || (stride >= bytes && stride <= (SIZE_MAX - bytes) / (count - 1)));
}

/* Whether the layout is one for these ranks, with no other move under way. */
static int is_layout(const mover *m)
{
    const tezgumi_mpi_layout *l = m->layout;
    return l && l->room && l->ranks == m->ranks && l->move == 0 && (m->fields || m->count == 0);
}

/* The bytes of an element in all fields, or more than the limit. */
static size_t size_of(const mover *m)
{
    size_t size = 0;
    uint32_t k;
    for (k = 0; k < m->count && size <= TEZGUMI_MPI_BYTES; k++) {
        if (m->fields[k].bytes > TEZGUMI_MPI_BYTES) return SIZE_MAX;
        size += m->fields[k].bytes;
    }
    return size;
}

/* Room for the lists of one side. */
static unsigned char *lay_lists(side *d, size_t ranks, unsigned char *at)
{
    d->pieces.list = (tezgumi_mpi_piece *)at;
    d->offered = (uint32_t *)(d->pieces.list + ranks);
    d->taken = d->offered + ranks;
    d->bytes = (int *)(d->taken + ranks);
    d->starts = d->bytes + ranks;
    return (unsigned char *)(d->starts + ranks);
}

static int get_lists(mover *m)
{
    const size_t ranks = m->ranks, each = sizeof(tezgumi_mpi_piece) + 2 * sizeof(uint32_t) + 2 * sizeof(int);
    m->lists = malloc(2 * ranks * each);
    if (!m->lists) return TEZGUMI_NO_MEMORY;
    lay_lists(&m->in, ranks, lay_lists(&m->out, ranks, (unsigned char *)m->lists));
    memset(m->out.bytes, 0, 2 * ranks * sizeof(int));
    memset(m->in.bytes, 0, 2 * ranks * sizeof(int));
    return TEZGUMI_OK;
}

/* The elements that stay on this rank: *begin .. *end - 1. */
static void find_staying(const mover *m, uint64_t *begin, uint64_t *end)
{
    *begin = tezgumi_mpi_later(m->first, m->new_first);
    *end = tezgumi_mpi_earlier((uint64_t)m->first + m->held, (uint64_t)m->new_first + m->to_be_held);
    if (*end < *begin) *end = *begin;
}

/* Whether what stays here and what comes is what is to be here, each element once. */
static int is_covered(const mover *m)
{
    const tezgumi_mpi_pieces *in = &m->in.pieces;
    uint64_t begin, end;
    uint32_t k;
    find_staying(m, &begin, &end);
    for (k = 0; k < in->count; k++) {
        const tezgumi_mpi_piece *p = &in->list[k];
        if (k > 0 && in->list[k - 1].end > p->next) return 0;
        if (begin < end && p->next < end && p->end > begin) return 0;
    }
    return in->left + (end - begin) == m->to_be_held;
}

/* The first field of which an array is not there, or the number of fields. */
static uint32_t first_astray(const mover *m)
{
    uint32_t k;
    for (k = 0; k < m->count; k++) {
        const tezgumi_mpi_field *f = &m->fields[k];
        if (!is_array(f->from, f->from_stride, f->bytes, m->held)) break;
        if (!is_array(f->to, f->to_stride, f->bytes, m->to_be_held)) break;
    }
    return k;
}

/* Finds what goes where, if the layout says it. */
static int find_moves(mover *m)
{
    const tezgumi_mpi_layout *l = m->layout;
    uint32_t end;
    if (!tezgumi_mpi_is_decision(l, m->out.offered)) return 0;
    m->first = l->firsts[m->rank];
    m->held = l->counts[m->rank];
    if (m->held > 0 && (uint64_t)m->first + m->held > l->n) return 0;
    tezgumi_mpi_new_range(l, (int)m->rank, &m->new_first, &end);
    m->to_be_held = end - m->new_first;
    tezgumi_mpi_find_pieces(l, m->rank, &m->out.pieces, &m->in.pieces);
    return is_covered(m);
}

/* The bytes of a side in its greatest round. */
static size_t buffer_of(const mover *m, const side *d)
{
    return (size_t)tezgumi_mpi_earlier(d->pieces.left, m->most) * m->size;
}

/* Gets all the memory that the rounds will need, so that afterwards nothing can fail. */
static int get_buffers(mover *m)
{
    const size_t out = buffer_of(m, &m->out);
    m->buffers = malloc(out + buffer_of(m, &m->in) + 1); /* not null for no bytes */
    if (!m->buffers) return TEZGUMI_NO_MEMORY;
    m->out.buffer = (unsigned char *)m->buffers;
    m->in.buffer = m->out.buffer + out;
    return TEZGUMI_OK;
}

/* What all ranks have to have in common: who sends what to whom, the sizes, and the room. */
static uint64_t common_print(const mover *m)
{
    uint32_t words[2];
    uint64_t print = tezgumi_mpi_print_of_move(m->layout);
    uint32_t k;
    words[0] = (uint32_t)m->room;
    words[1] = m->count;
    print = tezgumi_mpi_fingerprint(print, words, 2);
    for (k = 0; k < m->count; k++) {
        words[0] = (uint32_t)m->fields[k].bytes;
        print = tezgumi_mpi_fingerprint(print, words, 1);
    }
    return print;
}

/* Copies numbers of so many bytes, all at once where they are together in both. */
static void copy(unsigned char *to, size_t to_stride, const unsigned char *from, size_t from_stride, size_t bytes, size_t count)
{
    size_t k;
    if (to_stride == bytes && from_stride == bytes) {
        memcpy(to, from, count * bytes);
        return;
    }
    for (k = 0; k < count; k++) memcpy(to + k * to_stride, from + k * from_stride, bytes);
}

/* Copies so many elements from here into a buffer, field by field. */
static void copy_out(const mover *m, uint32_t element, uint32_t count, unsigned char *to)
{
    uint32_t k;
    for (k = 0; k < m->count; k++) {
        const tezgumi_mpi_field *f = &m->fields[k];
        if (count == 0 || f->bytes == 0) continue;
        copy(to, f->bytes, (const unsigned char *)f->from + (element - m->first) * f->from_stride, f->from_stride, f->bytes, count);
        to += count * f->bytes;
    }
}

/* Copies so many elements from a buffer into the new arrays. */
static void copy_in(const mover *m, uint32_t element, uint32_t count, const unsigned char *from)
{
    uint32_t k;
    for (k = 0; k < m->count; k++) {
        const tezgumi_mpi_field *f = &m->fields[k];
        if (count == 0 || f->bytes == 0) continue;
        copy((unsigned char *)f->to + (element - m->new_first) * f->to_stride, f->to_stride, from, f->bytes, f->bytes, count);
        from += count * f->bytes;
    }
}

/* Copies what stays on this rank. */
static void copy_staying(const mover *m)
{
    uint64_t begin, end;
    uint32_t k;
    find_staying(m, &begin, &end);
    for (k = 0; k < m->count; k++) {
        const tezgumi_mpi_field *f = &m->fields[k];
        if (begin == end || f->bytes == 0) continue;
        copy((unsigned char *)f->to + (begin - m->new_first) * f->to_stride, f->to_stride,
            (const unsigned char *)f->from + (begin - m->first) * f->from_stride, f->from_stride, f->bytes, (size_t)(end - begin));
    }
}

/* Offers the next elements that leave this rank, as many as fit. */
static void offer(mover *m)
{
    uint32_t left = m->most, k;
    memset(m->out.offered, 0, m->ranks * sizeof *m->out.offered);
    for (k = 0; k < m->out.pieces.count; k++) {
        const tezgumi_mpi_piece *p = &m->out.pieces.list[k];
        m->out.offered[p->peer] = (uint32_t)tezgumi_mpi_earlier(p->end - p->next, left);
        left -= m->out.offered[p->peer];
    }
}

/* Takes of what is offered here as many elements as fit, in order of index. */
static void take(mover *m)
{
    uint32_t left = m->most, k;
    memset(m->in.taken, 0, m->ranks * sizeof *m->in.taken);
    for (k = 0; k < m->in.pieces.count; k++) {
        const uint32_t peer = m->in.pieces.list[k].peer;
        m->in.taken[peer] = (uint32_t)tezgumi_mpi_earlier(m->in.offered[peer], left);
        left -= m->in.taken[peer];
    }
}

/* Agrees with each rank on the elements that go to it, and come from it, in this round. */
static int agree_on_round(mover *m)
{
    offer(m);
    if (MPI_Alltoall(m->out.offered, 1, MPI_UINT32_T, m->in.offered, 1, MPI_UINT32_T, m->comm) != MPI_SUCCESS) return TEZGUMI_MPI_ERROR;
    take(m);
    if (MPI_Alltoall(m->in.taken, 1, MPI_UINT32_T, m->out.taken, 1, MPI_UINT32_T, m->comm) != MPI_SUCCESS) return TEZGUMI_MPI_ERROR;
    return TEZGUMI_OK;
}

/* Lets the elements that go stand in the buffer, piece by piece. */
static void lay_out(const mover *m, side *d)
{
    uint32_t k;
    int at = 0;
    for (k = 0; k < d->pieces.count; k++) {
        const uint32_t peer = d->pieces.list[k].peer;
        d->starts[peer] = at;
        d->bytes[peer] = (int)(d->taken[peer] * m->size);
        at += d->bytes[peer];
    }
}

/* One round; *left are the elements of all ranks that are still to go. */
static int exchange(mover *m, uint64_t *left, tezgumi_mpi_report *report)
{
    uint64_t gone = 0;
    uint32_t k;
    const int status = agree_on_round(m);
    if (status != TEZGUMI_OK) return status;
    lay_out(m, &m->out);
    lay_out(m, &m->in);
    for (k = 0; k < m->out.pieces.count; k++) {
        tezgumi_mpi_piece *p = &m->out.pieces.list[k];
        copy_out(m, p->next, m->out.taken[p->peer], m->out.buffer + m->out.starts[p->peer]);
        p->next += m->out.taken[p->peer];
        gone += m->out.taken[p->peer];
    }
    if (MPI_Alltoallv(m->out.buffer, m->out.bytes, m->out.starts, MPI_BYTE, m->in.buffer, m->in.bytes, m->in.starts, MPI_BYTE,
            m->comm) != MPI_SUCCESS
        || MPI_Allreduce(MPI_IN_PLACE, &gone, 1, MPI_UINT64_T, MPI_SUM, m->comm) != MPI_SUCCESS)
        return TEZGUMI_MPI_ERROR;
    for (k = 0; k < m->in.pieces.count; k++) {
        tezgumi_mpi_piece *p = &m->in.pieces.list[k];
        copy_in(m, p->next, m->in.taken[p->peer], m->in.buffer + m->in.starts[p->peer]);
        p->next += m->in.taken[p->peer];
    }
    *left -= gone;
    report->elements_moved += (uint32_t)gone;
    report->bytes_moved += gone * m->size;
    report->exchanges++;
    return TEZGUMI_OK;
}

/* Whether all that the move is given is in order, for which it gets some of its memory. */
static tezgumi_mpi_outcome refusal(mover *m)
{
    uint32_t k;
    int status;
    if (!m->layout || (!m->fields && m->count > 0)) return tezgumi_mpi_outcome_of(tezgumi_mpi_broken(TEZGUMI_MPI_RULE_NULL), 0);
    if (!is_layout(m)) return tezgumi_mpi_outcome_of(tezgumi_mpi_broken(TEZGUMI_MPI_RULE_LAYOUT), 0);
    m->size = size_of(m);
    if (m->size > TEZGUMI_MPI_BYTES) return tezgumi_mpi_outcome_of(tezgumi_mpi_broken(TEZGUMI_MPI_RULE_BYTES), 0);
    status = get_lists(m);
    if (status != TEZGUMI_OK) return tezgumi_mpi_outcome_of(status, 0);
    if (!find_moves(m)) return tezgumi_mpi_outcome_of(tezgumi_mpi_broken(TEZGUMI_MPI_RULE_CUTS), 0);
    k = first_astray(m);
    return k < m->count ? tezgumi_mpi_outcome_of(tezgumi_mpi_broken(TEZGUMI_MPI_RULE_FIELDS), k) : tezgumi_mpi_outcome_of(TEZGUMI_OK, 0);
}

/* Learns what goes where, and gets all memory. */
static tezgumi_mpi_outcome prepare(mover *m)
{
    const tezgumi_mpi_outcome outcome = refusal(m);
    if (outcome.status != TEZGUMI_OK) return outcome;
    m->most = m->size == 0 ? UINT32_MAX : m->size > m->room ? 1 : (uint32_t)(m->room / m->size);
    return tezgumi_mpi_outcome_of(get_buffers(m), 0);
}

/* The whole of it, but for the report's time. */
static int move(mover *m, tezgumi_mpi_report *report)
{
    uint64_t left = 0;
    const tezgumi_mpi_outcome outcome = prepare(m);
    int status = tezgumi_mpi_agree(m->comm, outcome, outcome.status == TEZGUMI_OK ? common_print(m) : 0, report);
    report->elements_moved = report->exchanges = 0;
    report->bytes_moved = 0;
    if (status == TEZGUMI_OK) left = m->out.pieces.left;
    if (status == TEZGUMI_OK && MPI_Allreduce(MPI_IN_PLACE, &left, 1, MPI_UINT64_T, MPI_SUM, m->comm) != MPI_SUCCESS)
        status = TEZGUMI_MPI_ERROR;
    if (status == TEZGUMI_OK) copy_staying(m);
    while (status == TEZGUMI_OK && left > 0) status = exchange(m, &left, report);
    if (status == TEZGUMI_OK) tezgumi_mpi_settle(m->layout);
    free(m->lists);
    free(m->buffers);
    return status;
}

int tezgumi_mpi_move_arrays(MPI_Comm comm, tezgumi_mpi_layout *layout, const tezgumi_mpi_field *fields, uint32_t count,
    const tezgumi_mpi_options *options, tezgumi_mpi_report *report)
{
    const double begin = MPI_Wtime();
    tezgumi_mpi_report unread;
    mover m;
    int rank, ranks, groups = 0, status;
    if (!report) report = &unread;
    if (MPI_Comm_test_inter(comm, &groups) != MPI_SUCCESS || MPI_Comm_size(comm, &ranks) != MPI_SUCCESS
        || MPI_Comm_rank(comm, &rank) != MPI_SUCCESS)
        return TEZGUMI_MPI_ERROR;
    if (groups) return tezgumi_mpi_told(tezgumi_mpi_broken(TEZGUMI_MPI_RULE_GROUPS), report);
    memset(&m, 0, sizeof m);
    m.comm = comm;
    m.rank = (uint32_t)rank;
    m.ranks = (uint32_t)ranks;
    m.layout = layout;
    m.fields = fields;
    m.count = count;
    m.room = tezgumi_mpi_room_of(options);
    status = move(&m, report);
    report->move_seconds = MPI_Wtime() - begin;
    return status;
}
