/* What is wrong, in the terms of the command line, where a number alone leaves people guessing. */
#ifndef EXPLAIN_H
#define EXPLAIN_H

#include "buffers.h"

#include <stdio.h>

/* Whether a refusal is one of a place in what was read: not of the call, before that is looked at, nor of an index that would not fit. */
bool has_place(uint32_t number);

/* Prints a line or more on a refusal, or nothing where there is no more to say. */
void explain_refusal(FILE *stream, const struct options *options, const struct buffers *buffers, const struct answer *answer);

#endif
