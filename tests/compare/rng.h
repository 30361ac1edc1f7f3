/* Random numbers that depend on nothing but a seed and a stream, so that a case can be had again by its number. */
#ifndef RNG_H
#define RNG_H

#include <stdbool.h>
#include <stddef.h>
#include <stdint.h>

struct rng {
    uint64_t state;
};

struct rng rng_start(uint64_t seed, uint64_t stream);
uint64_t rng_next(struct rng *rng);

/* Below the limit; 0 if the limit is 0. */
uint32_t rng_below(struct rng *rng, uint32_t limit);

/* From low to high, both included; low if high is below it. */
uint32_t rng_between(struct rng *rng, uint32_t low, uint32_t high);

/* True once in so many. */
bool rng_once_in(struct rng *rng, uint32_t many);

void rng_fill(struct rng *rng, uint8_t *bytes, size_t length);

#endif
