/* The fixup index of a handler, as a file. */
#ifndef INDEX_H
#define INDEX_H

#include <stdbool.h>
#include <stddef.h>
#include <stdint.h>

/* Whether a file is an index, by its version and the shape of its entries. That it is accepted at some bases is not asked. */
bool is_index(const uint8_t *bytes, size_t length);

#endif
