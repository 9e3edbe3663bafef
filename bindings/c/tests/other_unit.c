/* The other unit of two_units.cpp. */
#include <tezgumi_refusal.h>

int32_t check_in_c(const tezgumi_run *run, const tezgumi_decision *decision);

int32_t check_in_c(const tezgumi_run *run, const tezgumi_decision *decision)
{
    return tezgumi_check_run(run, decision);
}
