/* The exchange of elements: each round is done as a whole or not at all. */
#include "internal.h"

#define DEFAULT_ROOM ((size_t)64 << 20)
#define GREATEST_ROOM ((size_t)1 << 30) /* what a rank sends is counted by an int */

/* One direction of an exchange: the bytes for each peer, and where they stand in the buffer. */
typedef struct {
    unsigned char *buffer;
    int bytes[TEZGUMI_MPI_GATHERED_RANKS], starts[TEZGUMI_MPI_GATHERED_RANKS];
    size_t next[TEZGUMI_MPI_GATHERED_RANKS]; /* where the next element of a peer stands */
} lane;

/* A move under way. */
typedef struct {
    MPI_Comm comm;
    uint32_t rank;
    tezgumi_mpi_chain *chain;
    const tezgumi_mpi_callbacks *callbacks;
    tezgumi_mpi_schedule schedule;
    const uint32_t *first, *end; /* the elements of this round */
    uint32_t unpacked;           /* how many of them were unpacked here */
    lane out, in;
} mover;

/* Turns to a round: who sends how much to whom. */
static void begin_round(mover *m, uint32_t round)
{
    const uint32_t *e;
    m->first = m->schedule.order + m->schedule.starts[round];
    m->end = m->schedule.order + m->schedule.starts[round + 1];
    m->unpacked = 0;
    memset(m->out.bytes, 0, sizeof m->out.bytes);
    memset(m->in.bytes, 0, sizeof m->in.bytes);
    for (e = m->first; e < m->end; e++) {
        const uint32_t from = m->chain->places[*e], to = m->chain->new_places[*e];
        const int bytes = (int)tezgumi_mpi_padded(m->chain->bytes[*e]);
        if (from == m->rank) m->out.bytes[to] += bytes;
        if (to == m->rank) m->in.bytes[from] += bytes;
    }
}

/* Lets the bytes of all peers stand one after another. */
static void lay_out(lane *l, uint32_t ranks)
{
    uint32_t r;
    int at = 0;
    for (r = 0; r < ranks; r++) {
        l->starts[r] = at;
        l->next[r] = (size_t)at;
        at += l->bytes[r];
    }
}

/* Where the next element of a peer stands, which then is the one after it. */
static unsigned char *take(lane *l, uint32_t peer, uint32_t bytes)
{
    unsigned char *at = l->buffer + l->next[peer];
    l->next[peer] += tezgumi_mpi_padded(bytes);
    return at;
}

/* Packs what leaves in this round. */
static tezgumi_mpi_outcome pack_all(mover *m)
{
    const tezgumi_mpi_callbacks *call = m->callbacks;
    const uint32_t *e;
    for (e = m->first; e < m->end; e++) {
        const uint32_t bytes = m->chain->bytes[*e];
        unsigned char *to, *pad;
        if (m->chain->places[*e] != m->rank) continue;
        to = take(&m->out, m->chain->new_places[*e], bytes);
        pad = to + bytes;
        memset(pad, 0, tezgumi_mpi_padded(bytes) - bytes);
        if (call->pack(call->app, *e, to, bytes)) return tezgumi_mpi_outcome_of(TEZGUMI_MPI_CALLBACK, *e);
    }
    return tezgumi_mpi_outcome_of(TEZGUMI_OK, 0);
}

/* Unpacks what has arrived. */
static tezgumi_mpi_outcome unpack_all(mover *m)
{
    const tezgumi_mpi_callbacks *call = m->callbacks;
    const uint32_t *e;
    for (e = m->first; e < m->end; e++) {
        const uint32_t bytes = m->chain->bytes[*e];
        const unsigned char *from;
        if (m->chain->new_places[*e] != m->rank) continue;
        from = take(&m->in, m->chain->places[*e], bytes);
        if (call->unpack(call->app, *e, from, bytes)) return tezgumi_mpi_outcome_of(TEZGUMI_MPI_CALLBACK, *e);
        m->unpacked++;
    }
    return tezgumi_mpi_outcome_of(TEZGUMI_OK, 0);
}

/* All have arrived: what has left this rank is dropped, and the chain and the report follow. */
static void finish(mover *m, tezgumi_mpi_report *report)
{
    const uint32_t *e;
    for (e = m->first; e < m->end; e++) {
        if (m->chain->places[*e] == m->rank && m->callbacks->drop) m->callbacks->drop(m->callbacks->app, *e);
        m->chain->places[*e] = m->chain->new_places[*e];
        report->elements_moved++;
        report->bytes_moved += m->chain->bytes[*e];
    }
    report->exchanges++;
}

/* Some element could not be unpacked somewhere: all that were unpacked here are dropped, for they are still where they
 * came from. */
static void undo(mover *m)
{
    const uint32_t *e;
    for (e = m->first; m->callbacks->drop && m->unpacked > 0; e++) {
        if (m->chain->new_places[*e] != m->rank) continue;
        m->callbacks->drop(m->callbacks->app, *e);
        m->unpacked--;
    }
}

/* One round. */
static int exchange(mover *m, uint32_t round, tezgumi_mpi_report *report)
{
    int status;
    begin_round(m, round);
    lay_out(&m->out, m->chain->ranks);
    lay_out(&m->in, m->chain->ranks);
    status = tezgumi_mpi_agree(m->comm, pack_all(m), 0, report);
    if (status != TEZGUMI_OK) return status;
    if (MPI_Alltoallv(m->out.buffer, m->out.bytes, m->out.starts, MPI_BYTE, m->in.buffer, m->in.bytes, m->in.starts,
            MPI_BYTE, m->comm) != MPI_SUCCESS)
        return TEZGUMI_MPI_ERROR;
    status = tezgumi_mpi_agree(m->comm, unpack_all(m), 0, report);
    if (status == TEZGUMI_OK) finish(m, report);
    else undo(m);
    return status;
}

/* Whether all that move is given is in order. */
static tezgumi_mpi_outcome refusal(MPI_Comm comm, const tezgumi_mpi_chain *chain, const tezgumi_mpi_callbacks *callbacks)
{
    uint32_t i;
    if (!tezgumi_mpi_fits(comm, chain))
        return tezgumi_mpi_outcome_of(tezgumi_mpi_broken(chain ? TEZGUMI_MPI_RULE_CHAIN : TEZGUMI_MPI_RULE_NULL), 0);
    if (!callbacks || !callbacks->pack || !callbacks->unpack)
        return tezgumi_mpi_outcome_of(tezgumi_mpi_broken(TEZGUMI_MPI_RULE_CALLBACKS), 0);
    for (i = 0; i < chain->n; i++) {
        if (chain->places[i] >= chain->ranks || chain->new_places[i] >= chain->ranks)
            return tezgumi_mpi_outcome_of(tezgumi_mpi_broken(TEZGUMI_MPI_RULE_PLACES), i);
        if (chain->bytes[i] > TEZGUMI_MPI_GATHERED_BYTES) return tezgumi_mpi_outcome_of(tezgumi_mpi_broken(TEZGUMI_MPI_RULE_BYTES), i);
    }
    return tezgumi_mpi_outcome_of(TEZGUMI_OK, 0);
}

size_t tezgumi_mpi_room_of(const tezgumi_mpi_options *options)
{
    if (!options || options->room == 0) return DEFAULT_ROOM;
    return options->room < GREATEST_ROOM ? options->room : GREATEST_ROOM;
}

/* Gets all the memory that the move will need, so that afterwards only a callback can fail. */
static int prepare(mover *m, size_t room)
{
    const int status = tezgumi_mpi_schedule_of(m->chain, (int)m->rank, room, &m->schedule);
    if (status != TEZGUMI_OK) return status;
    m->out.buffer = (unsigned char *)malloc(m->schedule.out_bytes + 16); /* null for no element of 0 bytes */
    m->in.buffer = (unsigned char *)malloc(m->schedule.in_bytes + 16);
    return m->out.buffer && m->in.buffer ? TEZGUMI_OK : TEZGUMI_NO_MEMORY;
}

/* A fingerprint of who sends what to whom, and when. */
static uint64_t print_of(const mover *m)
{
    const tezgumi_mpi_schedule *s = &m->schedule;
    uint64_t print = tezgumi_mpi_fingerprint(TEZGUMI_MPI_FINGERPRINT, s->starts, (size_t)s->rounds + 1);
    uint32_t k;
    for (k = 0; k < s->starts[s->rounds]; k++) {
        const uint32_t i = s->order[k];
        const uint32_t words[4] = {i, m->chain->bytes[i], m->chain->places[i], m->chain->new_places[i]};
        print = tezgumi_mpi_fingerprint(print, words, 4);
    }
    return print;
}

/* The whole of it, but for the report's time. */
static int move(mover *m, size_t room, tezgumi_mpi_outcome outcome, tezgumi_mpi_report *report)
{
    uint32_t round;
    int status;
    if (outcome.status == TEZGUMI_OK) outcome.status = prepare(m, room);
    status = tezgumi_mpi_agree(m->comm, outcome, outcome.status == TEZGUMI_OK ? print_of(m) : 0, report);
    report->elements_moved = report->exchanges = 0;
    report->bytes_moved = 0;
    for (round = 0; status == TEZGUMI_OK && round < m->schedule.rounds; round++) status = exchange(m, round, report);
    free(m->schedule.memory);
    free(m->out.buffer);
    free(m->in.buffer);
    return status;
}

int tezgumi_mpi_move(MPI_Comm comm, tezgumi_mpi_chain *chain, const tezgumi_mpi_callbacks *callbacks,
    const tezgumi_mpi_options *options, tezgumi_mpi_report *report)
{
    const double begin = MPI_Wtime();
    tezgumi_mpi_report unread;
    mover m;
    int rank, groups = 0, status;
    if (!report) report = &unread;
    if (MPI_Comm_test_inter(comm, &groups) != MPI_SUCCESS || MPI_Comm_rank(comm, &rank) != MPI_SUCCESS) return TEZGUMI_MPI_ERROR;
    if (groups) return tezgumi_mpi_told(tezgumi_mpi_broken(TEZGUMI_MPI_RULE_GROUPS), report);
    memset(&m, 0, sizeof m);
    m.comm = comm;
    m.rank = (uint32_t)rank;
    m.chain = chain;
    m.callbacks = callbacks;
    status = move(&m, tezgumi_mpi_room_of(options), refusal(comm, chain, callbacks), report);
    report->move_seconds = MPI_Wtime() - begin;
    return status;
}
