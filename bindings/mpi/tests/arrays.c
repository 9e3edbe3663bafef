/* Moves of plain arrays: beside a slow count of where each element comes to stand, in which exchanges, and what is refused. Link with
 * --wrap for malloc, calloc, realloc, free, MPI_Alltoallv and tezgumi_mpi_enough. */
#include "parts.h"
#include "internal.h"

enum { MOST = 400, FIELDS = 4, WIDEST = 24, ROOM = MOST * WIDEST, UNTOUCHED = 0xa5 };

/* Of each field the bytes of an element, and the strides before and after. The two last ones are members of one struct, of 16 and
 * of 24 bytes. */
static const struct { size_t bytes, from, to; } shapes[FIELDS] = {{8, 8, 8}, {3, 7, 3}, {4, 16, 24}, {5, 16, 24}};
static const size_t from_at[FIELDS] = {0, 1, 0, 6}, to_at[FIELDS] = {8, 0, 16, 2}; /* where a field begins in its array */
enum { ELEMENT = 8 + 3 + 4 + 5 };

static unsigned char from[3][ROOM], to[3][ROOM], kept[3][ROOM];
static tezgumi_mpi_layout layout;
static tezgumi_mpi_report report;
static uint32_t old_places[MOST], new_places[MOST];

static int counting;       /* 1 while requests are those of the library */
static unsigned requests;  /* of this rank in the last call */
static unsigned refuse_at; /* the request to refuse, or 0 */
static int live;           /* requests that were granted, and not given back */
static uint64_t most_sent, most_received; /* bytes of this rank in one exchange of the last call */

void *__real_malloc(size_t bytes);
void *__real_calloc(size_t count, size_t bytes);
void *__real_realloc(void *old, size_t bytes);
void __real_free(void *old);
void *__wrap_malloc(size_t bytes);
void *__wrap_calloc(size_t count, size_t bytes);
void *__wrap_realloc(void *old, size_t bytes);
void __wrap_free(void *old);
extern __typeof__(MPI_Alltoallv) __real_MPI_Alltoallv, __wrap_MPI_Alltoallv;

static int is_refused(void)
{
    if (counting && ++requests == refuse_at) return 1;
    live += counting;
    return 0;
}

void *__wrap_malloc(size_t bytes)
{
    return is_refused() ? NULL : __real_malloc(bytes);
}

void *__wrap_calloc(size_t count, size_t bytes)
{
    return is_refused() ? NULL : __real_calloc(count, bytes);
}

void *__wrap_realloc(void *old, size_t bytes)
{
    void *room = is_refused() ? NULL : __real_realloc(old, bytes);
    if (room && old) live -= counting;
    return room;
}

void __wrap_free(void *old)
{
    if (old) live -= counting;
    __real_free(old);
}

int __wrap_MPI_Alltoallv(const void *out, const int *out_counts, const int *out_starts, MPI_Datatype out_type, void *in,
    const int *in_counts, const int *in_starts, MPI_Datatype in_type, MPI_Comm comm)
{
    uint64_t sent = 0, received = 0;
    int r;
    for (r = 0; r < ranks; r++) {
        sent += (uint64_t)out_counts[r];
        received += (uint64_t)in_counts[r];
    }
    most_sent = tezgumi_mpi_later(most_sent, sent);
    most_received = tezgumi_mpi_later(most_received, received);
    return __real_MPI_Alltoallv(out, out_counts, out_starts, out_type, in, in_counts, in_starts, in_type, comm);
}

static unsigned char byte_of(uint32_t element, uint32_t field, size_t k)
{
    return (unsigned char)(element * 29 + element / 8 * 3 + field * 71 + k * 13 + 1);
}

/* The array that a field is in. */
static uint32_t array_of(uint32_t field)
{
    return field < 2 ? field : 2;
}

/* Writes the elements that this rank holds into the old arrays, and nothing into the new ones. */
static void fill(void)
{
    uint32_t held = 0, i, f;
    size_t k;
    memset(from, UNTOUCHED, sizeof from);
    memset(to, UNTOUCHED, sizeof to);
    for (i = 0; i < layout.n; i++) {
        if (old_places[i] != (uint32_t)rank) continue;
        for (f = 0; f < FIELDS; f++)
            for (k = 0; k < shapes[f].bytes; k++) from[array_of(f)][from_at[f] + held * shapes[f].from + k] = byte_of(i, f, k);
        held++;
    }
    memcpy(kept, from, sizeof kept);
}

/* What the new arrays have to be, by going through all elements. */
static void expect_arrays(void)
{
    static unsigned char wanted[3][ROOM];
    uint32_t held = 0, i, f;
    size_t k;
    memset(wanted, UNTOUCHED, sizeof wanted);
    for (i = 0; i < layout.n; i++) {
        if (new_places[i] != (uint32_t)rank) continue;
        for (f = 0; f < FIELDS; f++)
            for (k = 0; k < shapes[f].bytes; k++) wanted[array_of(f)][to_at[f] + held * shapes[f].to + k] = byte_of(i, f, k);
        held++;
    }
    EXPECT(memcmp(wanted, to, sizeof to) == 0);
    EXPECT(memcmp(kept, from, sizeof from) == 0);
}

/* The layout says where each element is, and that no move is under way. */
static void expect_settled(void)
{
    uint32_t counts[64] = {0}, i, r;
    for (i = 0; i < layout.n; i++) {
        if (counts[new_places[i]]++ == 0) EXPECT(layout.firsts[new_places[i]] == i);
    }
    for (r = 0; r < layout.ranks; r++) EXPECT(layout.counts[r] == counts[r] && layout.sent[r] == 0 && layout.received[r] == 0);
    EXPECT(layout.move == 0);
}

static void fields_of(tezgumi_mpi_field *fields)
{
    uint32_t f;
    for (f = 0; f < FIELDS; f++) {
        fields[f].from = from[array_of(f)] + from_at[f];
        fields[f].to = to[array_of(f)] + to_at[f];
        fields[f].from_stride = shapes[f].from;
        fields[f].to_stride = shapes[f].to;
        fields[f].bytes = shapes[f].bytes;
    }
}

/* Moves fields, counted. */
static int move_these(tezgumi_mpi_layout *l, const tezgumi_mpi_field *fields, uint32_t count, size_t room)
{
    const tezgumi_mpi_options options = {0, room, 0, 0, 0};
    int status;
    requests = 0;
    live = 0;
    most_sent = most_received = 0;
    counting = 1;
    status = tezgumi_mpi_move_arrays(MPI_COMM_WORLD, l, fields, count, &options, &report);
    counting = 0;
    EXPECT(live == 0);
    expect_same(status);
    return status;
}

static int move_within(size_t room)
{
    tezgumi_mpi_field fields[FIELDS];
    fields_of(fields);
    return move_these(&layout, fields, FIELDS, room);
}

/* Cuts n elements in as many ranges as there are ranks, some of them without elements. */
static void cut(uint32_t n, uint32_t *seed, uint32_t *cuts)
{
    uint32_t b, i;
    cuts[0] = 0;
    for (b = 1; b < (uint32_t)ranks; b++) cuts[b] = next_random(seed, n + 1);
    cuts[ranks] = n;
    for (b = 2; b < (uint32_t)ranks; b++)
        for (i = b; i > 1 && cuts[i] < cuts[i - 1]; i--) {
            const uint32_t other = cuts[i];
            cuts[i] = cuts[i - 1];
            cuts[i - 1] = other;
        }
}

static void shuffle(uint32_t *seed, uint32_t *order)
{
    uint32_t i;
    for (i = 0; i < (uint32_t)ranks; i++) order[i] = i;
    for (i = (uint32_t)ranks; i > 1; i--) {
        const uint32_t k = next_random(seed, i), other = order[k];
        order[k] = order[i - 1];
        order[i - 1] = other;
    }
}

/* Writes a layout by ranges and the ranks that hold them now, and fills the arrays. */
static void hold(uint32_t n, const uint32_t *cuts, const uint32_t *order)
{
    uint32_t b, i;
    EXPECT(tezgumi_mpi_layout_room(&layout, (uint32_t)ranks) == TEZGUMI_OK);
    layout.n = n;
    for (b = 0; b < (uint32_t)ranks; b++) {
        layout.firsts[order[b]] = cuts[b] < cuts[b + 1] ? cuts[b] : UINT32_MAX; /* of no meaning */
        layout.counts[order[b]] = cuts[b + 1] - cuts[b];
        for (i = cuts[b]; i < cuts[b + 1]; i++) old_places[i] = order[b];
    }
}

/* Writes the decision of a layout, and fills the arrays. */
static void decide(const uint32_t *cuts, const uint32_t *names)
{
    memcpy(layout.cuts, cuts, ((size_t)ranks + 1) * sizeof *cuts);
    memcpy(layout.names, names, (size_t)ranks * sizeof *names);
    places_by(&layout, new_places);
    fill();
}

static void deal_at_random(uint32_t n, uint32_t seed)
{
    uint32_t cuts[65], order[64];
    cut(n, &seed, cuts);
    shuffle(&seed, order);
    hold(n, cuts, order);
    cut(n, &seed, cuts);
    shuffle(&seed, order);
    decide(cuts, order);
}

/* Elements that change their rank. */
static uint32_t count_moves(void)
{
    uint32_t moves = 0, i;
    for (i = 0; i < layout.n; i++) moves += old_places[i] != new_places[i];
    return moves;
}

/* As many as the rank that sends or receives most needs, with so many elements in each. */
static uint32_t fewest_exchanges(uint32_t most)
{
    uint32_t out[64] = {0}, in[64] = {0}, fewest = 0, i, r;
    for (i = 0; i < layout.n; i++) {
        if (old_places[i] == new_places[i]) continue;
        out[old_places[i]]++;
        in[new_places[i]]++;
    }
    for (r = 0; r < (uint32_t)ranks; r++) {
        const uint32_t needs = ((out[r] > in[r] ? out[r] : in[r]) + most - 1) / most;
        if (needs > fewest) fewest = needs;
    }
    return fewest;
}

/* Ranges at random, moved through rooms from less than an element to all. */
static void at_random(void)
{
    static const size_t rooms[] = {1, ELEMENT, 3 * ELEMENT + 7, 1000, 0, SIZE_MAX};
    uint32_t seed;
    for (seed = 1; seed <= 60; seed++) {
        const size_t room = rooms[seed % 6];
        const uint32_t most = room == 0 || room > MOST * ELEMENT ? MOST : room < 2 * ELEMENT ? 1 : (uint32_t)(room / ELEMENT);
        uint32_t moves, fewest;
        deal_at_random(seed % 10 == 0 ? 0 : 1 + seed * 31 % MOST, seed);
        moves = count_moves();
        fewest = fewest_exchanges(most);
        EXPECT(move_within(room) == TEZGUMI_OK);
        EXPECT(report.failed_rank == -1 && report.elements_moved == moves && report.bytes_moved == (uint64_t)ELEMENT * moves);
        EXPECT(report.exchanges >= fewest && report.exchanges <= moves);
        EXPECT(room != 0 || report.exchanges == (moves > 0));
        EXPECT(most_sent <= most * ELEMENT && most_received <= most * ELEMENT);
        EXPECT(requests == 2);
        expect_arrays();
        expect_settled();
    }
}

/* So many elements on each rank, all of which go to the next one. */
static void begin_ring(uint32_t each)
{
    uint32_t cuts[65], order[64], b;
    for (b = 0; b <= (uint32_t)ranks; b++) cuts[b] = each * b;
    for (b = 0; b < (uint32_t)ranks; b++) order[b] = b;
    hold(each * (uint32_t)ranks, cuts, order);
    for (b = 0; b < (uint32_t)ranks; b++) order[b] = (b + 1) % (uint32_t)ranks;
    decide(cuts, order);
}

/* The same, but that all go to the first. */
static void begin_funnel(uint32_t each)
{
    uint32_t cuts[65], order[64], b;
    begin_ring(each);
    cuts[0] = 0;
    for (b = 0; b < (uint32_t)ranks; b++) {
        cuts[b + 1] = layout.n;
        order[b] = b;
    }
    decide(cuts, order);
}

/* How many exchanges there are, which all ranks use at the same time. */
static void room(void)
{
    static const struct { size_t room; uint32_t exchanges; } rows[] = {
        {0, 1}, {1, 8}, {ELEMENT, 8}, {2 * ELEMENT - 1, 8}, {2 * ELEMENT, 4}, {3 * ELEMENT, 3}, {7 * ELEMENT, 2}, {8 * ELEMENT, 1}};
    uint32_t k;
    for (k = 0; k < sizeof rows / sizeof *rows; k++) {
        begin_ring(8);
        EXPECT(move_within(rows[k].room) == TEZGUMI_OK && report.exchanges == rows[k].exchanges);
        expect_arrays();
        expect_settled();
    }
    begin_funnel(6);
    EXPECT(move_within(2 * ELEMENT) == TEZGUMI_OK && report.exchanges == 3 * (uint32_t)(ranks - 1));
    EXPECT(most_received == (rank == 0 ? 2 * ELEMENT : 0));
    expect_arrays();
}

/* No fields, and fields of no bytes: the layout follows, and nothing is written. */
static void nothing_to_copy(void)
{
    tezgumi_mpi_field fields[2] = {{NULL, NULL, 0, 0, 0}, {NULL, NULL, 5, 5, 0}};
    uint32_t count;
    for (count = 0; count < 3; count++) {
        begin_ring(8);
        EXPECT(move_these(&layout, count ? fields : NULL, count, 16) == TEZGUMI_OK);
        EXPECT(report.elements_moved == (ranks > 1 ? layout.n : 0) && report.bytes_moved == 0 && report.exchanges == (ranks > 1));
        expect_settled();
    }
}

/* A rank with no elements before, or behind, needs no arrays for them. */
static void no_arrays(void)
{
    tezgumi_mpi_field fields[FIELDS];
    uint32_t f;
    begin_funnel(6);
    fields_of(fields);
    for (f = 0; f < FIELDS && rank > 0; f++) fields[f].to = NULL;
    EXPECT(move_these(&layout, fields, FIELDS, 0) == TEZGUMI_OK);
    expect_arrays();
    expect_settled();
}

/* What a refused move was given is as it was. */
static void expect_untouched(const tezgumi_mpi_layout *before, const uint32_t *words)
{
    size_t k;
    EXPECT(memcmp(kept, from, sizeof from) == 0);
    for (k = 0; k < sizeof to; k++) EXPECT(((unsigned char *)to)[k] == UNTOUCHED);
    EXPECT(memcmp(before, &layout, sizeof layout) == 0);
    EXPECT(memcmp(words, layout.room, (6 * (size_t)ranks + 1) * sizeof *words) == 0);
}

/* Ways in which a rank may be wrong. Those from SAME_WRONG on are wrong on all ranks alike. */
enum { DOUBLE_NAME, FAR_NAME, FALLING_CUT, SHORT_CUTS, FAR_CUTS, OTHER_RANKS, NO_ROOM, UNDER_WAY, NO_FIELDS, NO_FROM, NO_TO,
    NARROW_FROM, NARROW_TO, WIDE_FROM, WIDE_TO, GREAT_FIELD, GREAT_ELEMENT, SAME_WRONG, OVERLAP = SAME_WRONG, GAP, BOTH, FAR_RANGE, WRONGS };

static void spoil(int wrong, tezgumi_mpi_layout *l, tezgumi_mpi_field *fields)
{
    switch (wrong) {
    case DOUBLE_NAME: l->names[0] = l->names[ranks - 1]; break;
    case FAR_NAME: l->names[0] = (uint32_t)ranks; break;
    case FALLING_CUT: l->cuts[1] = l->n + 1; break;
    case SHORT_CUTS: l->cuts[ranks]--; break;
    case FAR_CUTS: l->cuts[0]++; break;
    case OTHER_RANKS: l->ranks--; break;
    case NO_ROOM: l->room = NULL; break;
    case UNDER_WAY: l->move = tezgumi_mpi_print_of_move(l); break;
    case NO_FROM: fields[1].from = NULL; break;
    case NO_TO: fields[2].to = NULL; break;
    case NARROW_FROM: fields[0].from_stride = 7; break;
    case NARROW_TO: fields[3].to_stride = 4; break;
    case WIDE_FROM: fields[0].from_stride = SIZE_MAX / 5; break;
    case WIDE_TO: fields[0].to_stride = SIZE_MAX; break;
    case GREAT_FIELD: fields[0].bytes = SIZE_MAX; break;
    case GREAT_ELEMENT: fields[0].bytes = fields[0].from_stride = fields[0].to_stride = TEZGUMI_MPI_BYTES; break;
    case OVERLAP: l->counts[0]++; break;
    case GAP: l->counts[0]--; break;
    case BOTH: l->firsts[0]++; break;
    case FAR_RANGE: l->counts[ranks - 1]++; break;
    default: break;
    }
}

/* The rule that each breaks, and what is told of where. */
static const struct { int rule; uint32_t at; } told[WRONGS] = {
    [DOUBLE_NAME] = {TEZGUMI_MPI_RULE_CUTS, 0}, [FAR_NAME] = {TEZGUMI_MPI_RULE_CUTS, 0}, [FALLING_CUT] = {TEZGUMI_MPI_RULE_CUTS, 0},
    [SHORT_CUTS] = {TEZGUMI_MPI_RULE_CUTS, 0}, [FAR_CUTS] = {TEZGUMI_MPI_RULE_CUTS, 0}, [OTHER_RANKS] = {TEZGUMI_MPI_RULE_LAYOUT, 0},
    [NO_ROOM] = {TEZGUMI_MPI_RULE_LAYOUT, 0}, [UNDER_WAY] = {TEZGUMI_MPI_RULE_LAYOUT, 0}, [NO_FIELDS] = {TEZGUMI_MPI_RULE_NULL, 0},
    [NO_FROM] = {TEZGUMI_MPI_RULE_FIELDS, 1}, [NO_TO] = {TEZGUMI_MPI_RULE_FIELDS, 2}, [NARROW_FROM] = {TEZGUMI_MPI_RULE_FIELDS, 0},
    [NARROW_TO] = {TEZGUMI_MPI_RULE_FIELDS, 3}, [WIDE_FROM] = {TEZGUMI_MPI_RULE_FIELDS, 0}, [WIDE_TO] = {TEZGUMI_MPI_RULE_FIELDS, 0},
    [GREAT_FIELD] = {TEZGUMI_MPI_RULE_BYTES, 0}, [GREAT_ELEMENT] = {TEZGUMI_MPI_RULE_BYTES, 0}, [OVERLAP] = {TEZGUMI_MPI_RULE_CUTS, 0},
    [GAP] = {TEZGUMI_MPI_RULE_CUTS, 0}, [BOTH] = {TEZGUMI_MPI_RULE_CUTS, 0}, [FAR_RANGE] = {TEZGUMI_MPI_RULE_CUTS, 0}};

/* The last rank, or each, does something wrong: all say so, and nothing is written. */
static void refusals(void)
{
    tezgumi_mpi_field fields[FIELDS];
    tezgumi_mpi_layout before;
    uint32_t words[6 * 64 + 1];
    int wrong;
    for (wrong = 0; wrong < WRONGS; wrong++) {
        const int spoilt = rank == ranks - 1 || wrong >= SAME_WRONG;
        if (ranks == 1 && (wrong == DOUBLE_NAME || wrong == OVERLAP)) continue; /* these are in order */
        begin_ring(6);
        fields_of(fields);
        if (spoilt) spoil(wrong, &layout, fields);
        before = layout;
        memcpy(words, layout.firsts, (6 * (size_t)ranks + 1) * sizeof *words);
        EXPECT(move_these(&layout, spoilt && wrong == NO_FIELDS ? NULL : fields, FIELDS, 0) == TEZGUMI_BAD_INPUT);
        EXPECT(report.failed_rank >= 0 && (report.failed_rank == ranks - 1 || wrong >= SAME_WRONG));
        EXPECT(report.failed_rule == told[wrong].rule && report.failed_at == told[wrong].at);
        layout.room = layout.firsts; /* the room begins with them */
        before.room = layout.room;
        expect_untouched(&before, words);
        layout.ranks = (uint32_t)ranks;
    }
    begin_ring(6);
    fields_of(fields);
    EXPECT(move_these(rank == ranks - 1 ? NULL : &layout, fields, FIELDS, 0) == TEZGUMI_BAD_INPUT);
    EXPECT(report.failed_rule == TEZGUMI_MPI_RULE_NULL);
    EXPECT(move_within(0) == TEZGUMI_OK);
    expect_arrays();
}

/* Ranges of which two have elements in common, and as many others are in none, on all ranks alike: of this rank and another, and of two
 * others. */
static void overlaps(void)
{
    tezgumi_mpi_layout before;
    uint32_t words[6 * 64 + 1], other;
    for (other = 1; other < (uint32_t)ranks && other < 3; other++) {
        begin_funnel(6);
        layout.firsts[other] -= 3;
        before = layout;
        memcpy(words, layout.room, (6 * (size_t)ranks + 1) * sizeof *words);
        EXPECT(move_within(0) == TEZGUMI_BAD_INPUT && report.failed_rank == 0 && report.failed_rule == TEZGUMI_MPI_RULE_CUTS);
        expect_untouched(&before, words);
    }
}

/* What the ranks do not have in common. */
static void differences(void)
{
    tezgumi_mpi_field fields[FIELDS];
    tezgumi_mpi_layout before;
    uint32_t words[6 * 64 + 1], k;
    for (k = 0; k < 4; k++) {
        const int differs = rank == ranks - 1;
        begin_ring(6);
        fields_of(fields);
        if (differs && k == 0) fields[1].bytes = 2;
        if (differs && k == 1) layout.cuts[1]--;
        before = layout;
        memcpy(words, layout.room, (6 * (size_t)ranks + 1) * sizeof *words);
        EXPECT(move_these(&layout, fields, differs && k == 2 ? FIELDS - 1 : FIELDS, differs && k == 3 ? 100 : 0) == TEZGUMI_MPI_DISAGREE);
        expect_untouched(&before, words);
    }
}

/* Each request for memory is refused in turn, on each rank in turn. */
static void refused_memory(void)
{
    tezgumi_mpi_layout before;
    uint32_t words[6 * 64 + 1];
    unsigned k;
    int on;
    for (on = 0; on < ranks; on++) {
        deal_at_random(200, (uint32_t)on + 7);
        before = layout;
        memcpy(words, layout.room, (6 * (size_t)ranks + 1) * sizeof *words);
        for (k = 1; k <= 2; k++) {
            refuse_at = rank == on ? k : 0;
            EXPECT(move_within(100) == TEZGUMI_NO_MEMORY && report.failed_rank == on);
            EXPECT(report.elements_moved == 0 && report.bytes_moved == 0 && report.exchanges == 0);
            expect_untouched(&before, words);
        }
        refuse_at = rank == on ? 3 : 0;
        EXPECT(move_within(100) == TEZGUMI_OK && requests == 2);
        refuse_at = 0;
        expect_arrays();
        expect_settled();
    }
}

/* An intercommunicator: nothing is touched. */
static void two_groups(void)
{
    tezgumi_mpi_field fields[FIELDS];
    MPI_Comm half, both;
    begin_ring(3);
    fields_of(fields);
    MPI_Comm_split(MPI_COMM_WORLD, rank % 2, rank, &half);
    MPI_Intercomm_create(half, 0, MPI_COMM_WORLD, 1 - rank % 2, 0, &both);
    EXPECT(tezgumi_mpi_move_arrays(both, &layout, fields, FIELDS, NULL, NULL) == TEZGUMI_BAD_INPUT);
    MPI_Comm_free(&both);
    MPI_Comm_free(&half);
    EXPECT(move_within(0) == TEZGUMI_OK);
    expect_arrays();
}

/* What is decided comes to stand where it does by callbacks. */
static void as_by_callbacks(void)
{
    static field f;
    const tezgumi_mpi_callbacks callbacks = callbacks_of(&f);
    tezgumi_mpi_layout by_calls = {0};
    uint32_t seed, i, first, end;
    for (seed = 1; seed <= 5; seed++) {
        tezgumi_mpi_part part;
        deal_parts(&f, 60 * seed, seed, EVEN, 1);
        part = part_of(&f);
        EXPECT(tezgumi_mpi_decide_part(MPI_COMM_WORLD, &part, NULL, &layout, NULL) == TEZGUMI_OK);
        EXPECT(tezgumi_mpi_decide_part(MPI_COMM_WORLD, &part, NULL, &by_calls, NULL) == TEZGUMI_OK);
        memcpy(old_places, f.dealt, layout.n * sizeof *old_places);
        places_by(&layout, new_places);
        fill();
        EXPECT(tezgumi_mpi_new_range(&layout, rank, &first, &end) == 1);
        EXPECT(move_within(0) == TEZGUMI_OK);
        EXPECT(tezgumi_mpi_move_part(MPI_COMM_WORLD, &part, &by_calls, &callbacks, NULL, NULL) == TEZGUMI_OK);
        expect_arrays();
        expect_at(&f, new_places);
        for (i = 0; i < layout.n; i++) EXPECT((f.held[i] != NULL) == (first <= i && i < end));
        EXPECT(memcmp(layout.firsts, by_calls.firsts, (6 * (size_t)ranks + 1) * sizeof *layout.firsts) == 0);
    }
    field_free(&f);
    tezgumi_mpi_layout_free(&by_calls);
}

/* The range that a rank is to hold. */
static void new_range(void)
{
    uint32_t first = 7, end = 7, r;
    deal_at_random(100, 3);
    for (r = 0; r < (uint32_t)ranks; r++) {
        uint32_t i;
        EXPECT(tezgumi_mpi_new_range(&layout, (int)r, &first, &end) == 1);
        for (i = 0; i < layout.n; i++) EXPECT((new_places[i] == r) == (first <= i && i < end));
    }
    EXPECT(tezgumi_mpi_new_range(&layout, ranks, &first, &end) == 0 && first == 0 && end == 0);
    EXPECT(tezgumi_mpi_new_range(&layout, -1, &first, &end) == 0);
    EXPECT(tezgumi_mpi_new_range(NULL, 0, &first, &end) == 0);
}

int main(int argc, char **argv)
{
    begin_tests(&argc, &argv);
    run_test("arrays at random", at_random);
    run_test("arrays of no bytes", nothing_to_copy);
    run_test("arrays of no elements", no_arrays);
    run_test("bad arrays and layouts", refusals);
    run_test("memory refused on one rank, of arrays", refused_memory);
    run_test("the range that a rank is to hold", new_range);
    run_test("arrays as by callbacks", as_by_callbacks);
    if (ranks > 1) {
        run_test("room for an exchange of arrays", room);
        run_test("ranges that overlap", overlaps);
        run_test("arrays that differ from rank to rank", differences);
        run_test("two groups of ranks with arrays", two_groups);
    }
    tezgumi_mpi_layout_free(&layout);
    return end_tests();
}
