/* The answer as one JSON object, for programs. */
#ifndef JSON_H
#define JSON_H

#include "buffers.h"

#include <stdio.h>

/* Prints the object on one line. A number that is absent is null. Errors stay in the stream. */
void print_json(FILE *stream, const struct options *options, const struct buffers *buffers, const struct answer *answer);

#endif
