/* The answer in words, for people. */
#ifndef REPORT_H
#define REPORT_H

#include "buffers.h"

#include <stdio.h>

/* What was there before the call. */
struct before {
    bool copy; /* of a handler that is moved, at its new bases */
    bool out;  /* a file where --out leads, that a rename would replace */
};

/* Prints what came of a call. Errors stay in the stream. */
void print_report(FILE *stream, const struct options *options, const struct buffers *buffers, const struct answer *answer,
                  struct before before);

#endif
