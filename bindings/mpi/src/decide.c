/* The decision, which each rank takes by itself. */
#include "internal.h"
#include <tezgumi_refusal.h>

/* Whether the elements of each rank are one range. */
static int in_ranges(const tezgumi_mpi_chain *chain)
{
    unsigned char seen[TEZGUMI_MPI_GATHERED_RANKS] = {0};
    uint32_t i;
    for (i = 0; i < chain->n; i++) {
        if (i && chain->places[i] == chain->places[i - 1]) continue;
        if (seen[chain->places[i]]) return 0;
        seen[chain->places[i]] = 1;
    }
    return 1;
}

/* Whether the ranks hold the chain in their own order. */
static int in_order(const tezgumi_mpi_chain *chain)
{
    uint32_t i;
    for (i = 1; i < chain->n; i++)
        if (chain->places[i] < chain->places[i - 1]) return 0;
    return 1;
}

/* The greatest load of a rank at present, and the load of all. */
static uint64_t max_load(const tezgumi_mpi_chain *chain, uint64_t *total)
{
    uint64_t loads[TEZGUMI_MPI_GATHERED_RANKS] = {0}, most = 0;
    uint32_t i;
    *total = 0;
    for (i = 0; i < chain->n; i++) {
        const uint64_t load = loads[chain->places[i]] += chain->loads[i];
        if (load > most) most = load;
        *total += chain->loads[i];
    }
    return most;
}

/* What this rank has decided, before it knows that the others have decided the same. */
typedef struct {
    const uint32_t *places; /* the new places */
    uint64_t max_load_before, max_load_after, total;
    uint64_t bytes_moved;
    uint32_t elements_moved;
} verdict;

static void count_moves(const tezgumi_mpi_chain *chain, verdict *v)
{
    uint32_t i;
    for (i = 0; i < chain->n; i++) {
        if (chain->places[i] == v->places[i]) continue;
        v->elements_moved++;
        v->bytes_moved += chain->bytes[i];
    }
}

int tezgumi_mpi_is_enough(uint64_t load, uint64_t least, double tolerance)
{
    return load <= least || (double)(load - least) <= tolerance * (double)least;
}

/* Whether the greatest load is good enough: for refine by the limit in whole numbers that was decided within. */
static int is_enough(uint64_t load, const tezgumi_refinement *d, const tezgumi_mpi_options *options)
{
    if (!options->refine) return tezgumi_mpi_is_enough(load, d->decision.bottleneck, options->tolerance);
    return load <= d->least || load - d->least <= d->least / 1000 * d->tolerance + d->least % 1000 * d->tolerance / 1000;
}

/* The decided places, or the present ones where these are good enough: also elements of 0 bytes stay then. */
static void choose(const tezgumi_mpi_chain *chain, const tezgumi_refinement *d, const tezgumi_mpi_options *options, verdict *v)
{
    const uint64_t before = max_load(chain, &v->total);
    const int stays = (options->keep_order ? in_order(chain) : in_ranges(chain)) && is_enough(before, d, options);
    v->places = stays ? chain->places : d->decision.new_places;
    v->max_load_before = before;
    v->max_load_after = stays ? before : d->decision.bottleneck;
    count_moves(chain, v);
}

/* A fingerprint of what all ranks have to have decided, and report. */
static uint64_t print_of(const verdict *v, uint32_t n)
{
    const uint32_t load[2] = {(uint32_t)v->max_load_after, (uint32_t)(v->max_load_after >> 32)};
    const uint64_t print = tezgumi_mpi_fingerprint(TEZGUMI_MPI_FINGERPRINT, v->places, n);
    return tezgumi_mpi_fingerprint(print, load, 2);
}

/* All ranks have decided the same: writes it down. */
static void accept(const verdict *v, tezgumi_mpi_chain *chain, tezgumi_mpi_report *report)
{
    memcpy(chain->new_places, v->places, chain->n * sizeof *v->places);
    report->max_load_before = v->max_load_before;
    report->max_load_after = v->max_load_after;
    report->average_load = (double)v->total / (double)chain->ranks;
    report->bytes_moved = v->bytes_moved;
    report->elements_moved = v->elements_moved;
}

/* Gets the room and decides: within the tolerance, where that is asked. */
static int decide(const tezgumi_run *run, const tezgumi_mpi_options *options, tezgumi_refinement *d)
{
    tezgumi_decision *of = &d->decision;
    const uint32_t ranks = run->procs;
    int status;
    if (options->refine) {
        status = tezgumi_refinement_room(d, run->n, ranks);
        if (status != TEZGUMI_OK) return status;
        return tezgumi_refine_run(run, (uint32_t)(options->tolerance * 1000 + 0.5), options->keep_order != 0, d);
    }
    status = tezgumi_decision_room(of, run->n, ranks);
    if (status != TEZGUMI_OK) return status;
    if (!options->skip_check || options->keep_order) return tezgumi_decide_run(run, of);
    return tezgumi_plan_run(run, ranks, of->new_places, &of->bottleneck, &of->moved);
}

/* Whether cuts near the present ones are for the ranks in their own order. */
static int is_own_order(const tezgumi_refinement *d)
{
    uint32_t b;
    if (!d->near_present) return 0;
    for (b = 0; b < d->decision.pes; b++)
        if (d->order[b] != b) return 0;
    return 1;
}

/* Lets block b go to rank b. Cuts near the present ones are for the order in which the ranks hold the chain: where that is not their own,
 * the least division is taken. */
static void keep_order(const tezgumi_mpi_options *options, tezgumi_refinement *d)
{
    tezgumi_decision *of = &d->decision;
    const uint32_t *cuts = of->cuts;
    uint32_t b, i;
    if (options->refine && !is_own_order(d)) {
        cuts = d->least_cuts;
        of->bottleneck = d->least;
    }
    for (b = 0; b < of->pes; b++)
        for (i = cuts[b]; i < cuts[b + 1]; i++) of->new_places[i] = b;
}

/* Why the run was refused: what was gathered keeps all limits, so that the chain has been changed since. */
static tezgumi_mpi_outcome refused(const tezgumi_run *run, int status)
{
    tezgumi_refusal why;
    tezgumi_no_refusal(&why);
    if (tezgumi_why_run(run, run->procs, 0, &why) == status && why.rule == TEZGUMI_RULE_ASTRAY)
        return tezgumi_mpi_outcome_of(tezgumi_mpi_broken(TEZGUMI_MPI_RULE_PLACES), why.entry);
    if (why.rule == TEZGUMI_RULE_MANY_UNITS)
        return tezgumi_mpi_outcome_of(tezgumi_mpi_refusal(status, TEZGUMI_MPI_RULE_TOTAL_LOAD), why.entry);
    if (why.rule == TEZGUMI_RULE_MANY_BYTES)
        return tezgumi_mpi_outcome_of(tezgumi_mpi_broken(TEZGUMI_MPI_RULE_TOTAL_BYTES), why.entry);
    return tezgumi_mpi_outcome_of(tezgumi_mpi_refusal(status, TEZGUMI_MPI_RULE_CHAIN), 0);
}

/* Plans and checks; the outcome's second part is the flaw that was found, or the element that was refused. */
static tezgumi_mpi_outcome plan(const tezgumi_mpi_chain *chain, const tezgumi_mpi_options *options, tezgumi_refinement *d,
    tezgumi_mpi_report *report)
{
    const tezgumi_run run = {chain->n, chain->ranks, chain->loads, chain->bytes, chain->places};
    const double begin = MPI_Wtime();
    int status = decide(&run, options, d);
    const double planned = MPI_Wtime();
    report->plan_seconds = planned - begin;
    if (status == TEZGUMI_BAD_INPUT || status == TEZGUMI_BAD_LOAD) return refused(&run, status);
    if (status != TEZGUMI_OK || options->skip_check) return tezgumi_mpi_outcome_of(status, 0);
    status = options->refine ? tezgumi_check_refinement(&run, d, NULL) : tezgumi_check_run(&run, &d->decision);
    report->check_seconds = MPI_Wtime() - planned;
    if (status > TEZGUMI_OK) return tezgumi_mpi_outcome_of(TEZGUMI_MPI_WRONG_PLAN, (uint32_t)status);
    return tezgumi_mpi_outcome_of(status, 0);
}

/* Whether all that decide is given is in order. */
static int refusal(MPI_Comm comm, const tezgumi_mpi_chain *chain, const tezgumi_mpi_options *options)
{
    if (!tezgumi_mpi_fits(comm, chain)) return tezgumi_mpi_broken(chain ? TEZGUMI_MPI_RULE_CHAIN : TEZGUMI_MPI_RULE_NULL);
    if (!(options->tolerance >= 0) || (options->refine && options->tolerance > 1)) return tezgumi_mpi_broken(TEZGUMI_MPI_RULE_TOLERANCE);
    return TEZGUMI_OK;
}

int tezgumi_mpi_decide(MPI_Comm comm, tezgumi_mpi_chain *chain, const tezgumi_mpi_options *options,
    tezgumi_mpi_report *report)
{
    const tezgumi_mpi_options defaults = {0, 0, 0, 0, 0};
    tezgumi_mpi_outcome outcome = {TEZGUMI_OK, 0};
    tezgumi_mpi_report unread;
    tezgumi_refinement d;
    verdict v;
    uint64_t print = 0;
    double begin;
    int groups = 0, status;
    memset(&d, 0, sizeof d);
    memset(&v, 0, sizeof v);
    if (!options) options = &defaults;
    if (!report) report = &unread;
    if (MPI_Comm_test_inter(comm, &groups) != MPI_SUCCESS) return TEZGUMI_MPI_ERROR;
    if (groups) return tezgumi_mpi_told(tezgumi_mpi_broken(TEZGUMI_MPI_RULE_GROUPS), report);
    outcome.status = refusal(comm, chain, options);
    if (outcome.status == TEZGUMI_OK) outcome = plan(chain, options, &d, report);
    if (outcome.status == TEZGUMI_OK) {
        if (options->keep_order) keep_order(options, &d);
        choose(chain, &d, options, &v);
        print = print_of(&v, chain->n);
    }
    begin = MPI_Wtime();
    status = tezgumi_mpi_agree(comm, outcome, print, report);
    report->agree_seconds = MPI_Wtime() - begin;
    if (status == TEZGUMI_OK) accept(&v, chain, report);
    tezgumi_refinement_free(&d);
    return status;
}
