#include "parts.h"
#include "internal.h"

uint64_t enough = UINT64_MAX;

uint64_t __real_tezgumi_mpi_enough(const tezgumi_mpi_search *s);
uint64_t __wrap_tezgumi_mpi_enough(const tezgumi_mpi_search *s);

uint64_t __wrap_tezgumi_mpi_enough(const tezgumi_mpi_search *s)
{
    return enough == UINT64_MAX ? __real_tezgumi_mpi_enough(s) : enough;
}

static uint64_t load_of_kind(uint32_t i, uint32_t n, uint32_t *seed, kind loads)
{
    switch (loads) {
    case EVEN: return 50 + next_random(seed, 101);
    case SKEW: return ((uint64_t)next_random(seed, 1 << 20) << 20) / (1 + next_random(seed, 1000));
    case ZERO: return 0;
    default: return i == n / 2 ? 1000000 : next_random(seed, 4);
    }
}

void deal_parts(field *f, uint32_t n, uint32_t seed, kind loads, int spread)
{
    uint32_t order[64], i, at = 0;
    deal(f, n, seed, IN_ORDER);
    for (i = 0; i < (uint32_t)ranks; i++) order[i] = i;
    for (i = (uint32_t)ranks; i > 1; i--) {
        const uint32_t k = next_random(&seed, i), other = order[k];
        order[k] = order[i - 1];
        order[i - 1] = other;
    }
    for (i = 0; i < n; i++) {
        f->load[i] = load_of_kind(i, n, &seed, loads);
        while (spread && at + 1 < (uint32_t)ranks && next_random(&seed, n) < (uint32_t)ranks) at++;
        f->dealt[i] = order[at];
    }
    deal_again(f);
}

tezgumi_mpi_part part_of(const field *f)
{
    tezgumi_mpi_part part = {NULL, NULL, 0, 0};
    uint32_t i;
    for (i = 0; i < f->n; i++) {
        if (f->dealt[i] != (uint32_t)rank) continue;
        if (part.count++ == 0) part.first = i;
    }
    part.loads = f->load + part.first;
    part.bytes = f->size + part.first;
    return part;
}

void places_by(const tezgumi_mpi_layout *layout, uint32_t *places)
{
    uint32_t b, i;
    for (b = 0; b < layout->ranks; b++)
        for (i = layout->cuts[b]; i < layout->cuts[b + 1]; i++) places[i] = layout->names[b];
}
