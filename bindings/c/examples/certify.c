/* Decides, checks the decision as somebody would who does not trust it, and then spoils it. */
#include <inttypes.h>
#include <stdio.h>
#include <tezgumi.h>

int main(void)
{
    const uint64_t loads[] = {1, 1, 2};
    const uint32_t bytes[] = {10, 9, 8}, places[] = {0, 1, 0};
    const tezgumi_run run = {3, 2, loads, bytes, places};
    tezgumi_decision decision;
    uint32_t b;
    int32_t status = tezgumi_decision_room(&decision, run.n, 2);
    if (status == TEZGUMI_OK) status = tezgumi_decide_run(&run, &decision);
    if (status != TEZGUMI_OK) {
        fprintf(stderr, "not decided: %s\n", tezgumi_status_name(status));
        tezgumi_decision_free(&decision);
        return 1;
    }
    for (b = 0; b < decision.pes; b++)
        printf("elements %" PRIu32 " to %" PRIu32 " on PE %" PRIu32 "\n", decision.cuts[b], decision.cuts[b + 1] - 1,
            decision.names[b]);
    printf("as decided: %s\n", tezgumi_status_name(tezgumi_check_run(&run, &decision)));
    decision.bottleneck++;
    printf("a bottleneck of %" PRIu64 ": %s\n", decision.bottleneck, tezgumi_status_name(tezgumi_check_run(&run, &decision)));
    tezgumi_decision_free(&decision);
    return 0;
}
