#include "rng.h"

#include <string.h>

/* SplitMix64. */
uint64_t rng_next(struct rng *rng)
{
    uint64_t z = rng->state += 0x9E3779B97F4A7C15u;
    z = (z ^ (z >> 30)) * 0xBF58476D1CE4E5B9u;
    z = (z ^ (z >> 27)) * 0x94D049BB133111EBu;
    return z ^ (z >> 31);
}

struct rng rng_start(uint64_t seed, uint64_t stream)
{
    struct rng rng = {.state = seed};
    rng.state = rng_next(&rng) ^ (stream * 0xD1342543DE82EF95u);
    rng_next(&rng);
    return rng;
}

uint32_t rng_below(struct rng *rng, uint32_t limit)
{
    return limit == 0 ? 0 : (uint32_t)((rng_next(rng) >> 32) * limit >> 32);
}

uint32_t rng_between(struct rng *rng, uint32_t low, uint32_t high)
{
    return high <= low ? low : low + rng_below(rng, high - low + 1);
}

bool rng_once_in(struct rng *rng, uint32_t many)
{
    return rng_below(rng, many) == 0;
}

void rng_fill(struct rng *rng, uint8_t *bytes, size_t length)
{
    while (length > 0) {
        uint64_t eight = rng_next(rng);
        size_t count = length < sizeof eight ? length : sizeof eight;
        memcpy(bytes, &eight, count);
        bytes += count;
        length -= count;
    }
}
