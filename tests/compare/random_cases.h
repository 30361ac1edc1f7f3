/* Random cases. Each depends on the seed and its own number alone. */
#ifndef RANDOM_CASES_H
#define RANDOM_CASES_H

#include "driver.h"

/* A kind of random case for each call, and chains of moves. */
enum { CHAIN = CALLS, KINDS };

/* One case of the kind; false, and reported, if anything differs. */
bool random_case(struct driver *driver, int kind, uint64_t number);

/* Loads a handler, then moves it again and again, by its file and by its index, with live data changed and refused calls in between. */
bool chain_case(struct driver *driver, struct rng *rng);

/* As much as a whole run of them is called in the summary. */
const char *kind_name(int kind);

#endif
