/* What the driver knows while it runs, and its one step: to make a request of both implementations and compare all that they leave. */
#ifndef DRIVER_H
#define DRIVER_H

#include "request.h"
#include "rng.h"

enum { NUMBERS = 26, SIDES = 2, ANSWER_NUMBERS = 9 };

/* Lies in memory shared with the process that watches, which reports from it if a call does not come back. */
struct driver {
    uint64_t seed;
    char case_name[96];
    enum maker calling;    /* whose call is under way, or was last */
    uint32_t passed, failed;
    uint64_t requests;
    uint64_t met[CALLS][SIDES][NUMBERS];
    bool sample;           /* leaves out what takes long */
    bool stop;             /* ends at the first failure */
    struct request request;
    struct arena arenas[MAKERS][BUFFERS];
};

/* Where the answer has its numbers. */
enum { AT_NUMBER, AT_OFFSET, AT_SIDE, AT_START_PRESENT, AT_START, AT_PLACED, AT_ADJUSTED, AT_NEW_NAMES, AT_LOW };

/* Gives every room its right length and random former contents, and empties the inputs. */
void prepare(struct driver *driver, struct rng *rng, enum call call);

/* Makes the request of one of the two, every buffer between guard pages but one that is lent from elsewhere, or BUFFERS for none. */
uint32_t call_with(struct driver *driver, enum maker maker, enum buffer elsewhere, uint8_t *bytes);

/* Makes the request of both; false, and reported, if anything differs. */
bool agree(struct driver *driver);

/* What the product's call left in a buffer, and the answer's numbers. */
const uint8_t *left_in(const struct driver *driver, enum buffer buffer);
uint32_t answered(const struct driver *driver, int at);

/* Says where a fault was found: the case, the seed, the request. */
void complain(const struct driver *driver, const char *what);

/* Counts one test; ends the process if it failed and the driver is to stop there. */
void count(struct driver *driver, bool passed);

#endif
