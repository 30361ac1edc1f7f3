/* What the program says of itself. */
#ifndef USAGE_H
#define USAGE_H

#include <stdio.h>

void print_usage(FILE *stream);

void print_version(FILE *stream);

#endif
