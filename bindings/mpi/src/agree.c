/* How ranks come to one status. */
#include "internal.h"

const char *tezgumi_mpi_status_name(int status)
{
    switch (status) {
    case TEZGUMI_MPI_BAD_INDEX: return "an index is held twice, or is past the end";
    case TEZGUMI_MPI_WRONG_PLAN: return "the checker found a flaw in the plan";
    case TEZGUMI_MPI_DISAGREE: return "the ranks decided differently";
    case TEZGUMI_MPI_CALLBACK: return "a callback failed";
    case TEZGUMI_MPI_LIBRARY: return "the library does not fit its header";
    case TEZGUMI_MPI_ERROR: return "an MPI call failed";
    case TEZGUMI_MPI_SCATTERED: return "scattered elements are too many to be gathered";
    default: return tezgumi_status_name(status);
    }
}

const char *tezgumi_mpi_rule_name(int rule)
{
    switch (rule) {
    case TEZGUMI_MPI_RULE_NONE: return "no rule of the input is broken";
    case TEZGUMI_MPI_RULE_GROUPS: return "comm: there are two groups of ranks";
    case TEZGUMI_MPI_RULE_RANKS: return "comm: there are too many ranks";
    case TEZGUMI_MPI_RULE_NULL: return "a list, the chain, the part or the layout is null";
    case TEZGUMI_MPI_RULE_CALLBACKS: return "callbacks: pack or unpack is null";
    case TEZGUMI_MPI_RULE_ELEMENTS: return "count: there are too many elements";
    case TEZGUMI_MPI_RULE_BYTES: return "bytes: an element is too large";
    case TEZGUMI_MPI_RULE_TOTAL_BYTES: return "bytes: the elements are too large together";
    case TEZGUMI_MPI_RULE_LOAD: return "load: an element has too great a load";
    case TEZGUMI_MPI_RULE_TOTAL_LOAD: return "load: the loads add up to too much";
    case TEZGUMI_MPI_RULE_TOLERANCE: return "tolerance: it is negative, not a number, or above 1 with refine";
    case TEZGUMI_MPI_RULE_REFINE: return "refine: parts are not decided so";
    case TEZGUMI_MPI_RULE_LAYOUT: return "layout: it is of other ranks, or has another move under way";
    case TEZGUMI_MPI_RULE_CUTS: return "layout: cuts, names, firsts and counts do not fit together";
    case TEZGUMI_MPI_RULE_PART: return "part: it is not what the layout says that this rank holds";
    case TEZGUMI_MPI_RULE_CHAIN: return "chain: it is of other ranks, or has no room for its elements";
    case TEZGUMI_MPI_RULE_PLACES: return "places or new_places: one is not a rank";
    case TEZGUMI_MPI_RULE_FIELDS: return "fields: an array is null, or its stride does not fit";
    default: return "unknown rule";
    }
}

/* FNV-1a, word by word. */
uint64_t tezgumi_mpi_fingerprint(uint64_t before, const uint32_t *words, size_t count)
{
    uint64_t print = before;
    size_t i;
    for (i = 0; i < count; i++) print = (print ^ words[i]) * UINT64_C(1099511628211);
    return print;
}

/* An outcome and its rank as one number, 0 where all is well, so that the least number is that of the least status: in 5 bits the
 * status, in 20 the rank, in 32 the element, and in 5 the rule. */
static int64_t coded(tezgumi_mpi_outcome outcome, int rank)
{
    const uint64_t status = (uint64_t)-tezgumi_mpi_status_of(outcome.status), rule = (uint64_t)tezgumi_mpi_rule_of(outcome.status);
    if (outcome.status == TEZGUMI_OK) return 0;
    return -(int64_t)(status << 57 | (uint64_t)rank << 37 | (uint64_t)outcome.at << 5 | rule);
}

int tezgumi_mpi_agree(MPI_Comm comm, tezgumi_mpi_outcome mine, uint64_t fingerprint, tezgumi_mpi_report *report)
{
    const int64_t print = (int64_t)(fingerprint >> 2);
    int64_t told[3], least[3];
    uint64_t code;
    int rank;
    report->failed_rank = -1;
    report->failed_at = 0;
    report->failed_rule = TEZGUMI_MPI_RULE_NONE;
    if (MPI_Comm_rank(comm, &rank) != MPI_SUCCESS) return TEZGUMI_MPI_ERROR;
    told[0] = coded(mine, rank);
    told[1] = print;
    told[2] = -print; /* the least of these is that of the greatest fingerprint */
    if (MPI_Allreduce(told, least, 3, MPI_INT64_T, MPI_MIN, comm) != MPI_SUCCESS) return TEZGUMI_MPI_ERROR;
    if (least[0] == 0) return least[1] == -least[2] ? TEZGUMI_OK : TEZGUMI_MPI_DISAGREE;
    code = (uint64_t)-least[0];
    report->failed_rank = (int)(code >> 37 & 0xfffff);
    report->failed_at = (uint32_t)(code >> 5);
    report->failed_rule = (int)(code & 31);
    return -(int)(code >> 57);
}
