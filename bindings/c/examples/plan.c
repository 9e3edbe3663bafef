/* Six elements on three PEs, of which the last is the busiest: where is each to run from now on? */
#include <inttypes.h>
#include <stdio.h>
#include <tezgumi.h>

int main(void)
{
    const uint64_t loads[] = {2, 1, 2, 4, 4, 5};
    const uint32_t bytes[] = {100, 100, 100, 300, 300, 300}, places[] = {0, 0, 1, 2, 2, 2};
    const tezgumi_run run = {6, 3, loads, bytes, places};
    uint32_t new_places[6], i;
    uint64_t bottleneck, moved;
    const int32_t status = tezgumi_plan_run(&run, 3, new_places, &bottleneck, &moved);
    if (status != TEZGUMI_OK) {
        fprintf(stderr, "not planned: %s\n", tezgumi_status_name(status));
        return 1;
    }
    printf("heaviest PE %" PRIu64 ", bytes moved %" PRIu64 ":", bottleneck, moved);
    for (i = 0; i < run.n; i++) printf(" %" PRIu32, new_places[i]);
    printf("\n");
    return 0;
}
