/* In which exchange each element goes. */
#include "internal.h"

/* One direction of a rank: the round that it has come to, and the bytes of that round. */
typedef struct {
    uint32_t round;
    size_t used;
} gate;

static size_t used_in(const gate *g, uint32_t round)
{
    return g->round == round ? g->used : 0;
}

/* Lets an element out of one rank and into another, in the first round to which both have come, or in the next. Rounds of a
 * rank only rise, so an exchange between two ranks does not wait for one between two others. */
static uint32_t let_through(gate *out, gate *in, size_t bytes, size_t room)
{
    uint32_t round = out->round > in->round ? out->round : in->round;
    if (tezgumi_mpi_is_full(used_in(out, round), bytes, room) || tezgumi_mpi_is_full(used_in(in, round), bytes, room)) round++;
    out->used = used_in(out, round) + bytes;
    in->used = used_in(in, round) + bytes;
    return out->round = in->round = round;
}

/* Gives each element that moves its round, and counts those of each round, one entry further on. */
static void choose_rounds(const tezgumi_mpi_chain *chain, int rank, size_t room, uint32_t *round_of,
    tezgumi_mpi_schedule *s)
{
    gate out[TEZGUMI_MPI_GATHERED_RANKS], in[TEZGUMI_MPI_GATHERED_RANKS];
    uint32_t i;
    memset(out, 0, sizeof out);
    memset(in, 0, sizeof in);
    for (i = 0; i < chain->n; i++) {
        const uint32_t from = chain->places[i], to = chain->new_places[i];
        if (from == to) continue;
        round_of[i] = let_through(&out[from], &in[to], tezgumi_mpi_padded(chain->bytes[i]), room);
        if (round_of[i] + 1 > s->rounds) s->rounds = round_of[i] + 1;
        s->starts[round_of[i] + 1]++;
        if (out[rank].used > s->out_bytes) s->out_bytes = out[rank].used;
        if (in[rank].used > s->in_bytes) s->in_bytes = in[rank].used;
    }
}

/* Sorts the elements that move by their rounds. Each start but the last walks to the next one meanwhile. */
static void sort_by_round(const tezgumi_mpi_chain *chain, const uint32_t *round_of, tezgumi_mpi_schedule *s)
{
    uint32_t i, r;
    for (r = 0; r < s->rounds; r++) s->starts[r + 1] += s->starts[r];
    for (i = 0; i < chain->n; i++)
        if (chain->places[i] != chain->new_places[i]) s->order[s->starts[round_of[i]]++] = i;
    for (r = s->rounds; r > 0; r--) s->starts[r] = s->starts[r - 1];
    s->starts[0] = 0;
}

int tezgumi_mpi_schedule_of(
    const tezgumi_mpi_chain *chain, int rank, size_t room, tezgumi_mpi_schedule *schedule)
{
    const size_t n = chain->n;
    uint32_t *words = (uint32_t *)calloc(3 * n + 2, sizeof *words);
    memset(schedule, 0, sizeof *schedule);
    schedule->memory = words;
    if (!words) return TEZGUMI_NO_MEMORY;
    schedule->order = words;
    schedule->starts = words + 2 * n;
    choose_rounds(chain, rank, room, words + n, schedule);
    sort_by_round(chain, words + n, schedule);
    return TEZGUMI_OK;
}
