/* Rows of bytes: their addresses, the bytes, and what of them is text. */
#ifndef ROWS_H
#define ROWS_H

#include "buffers.h"

#include <stdio.h>

/* Prints the loaded bytes. Rows begin where a loaded range begins, so that a handler's dumps before and after a move can be laid side by
 * side. */
void print_loaded_rows(FILE *stream, const struct buffers *buffers);

/* Prints the row of the file with this offset, with the row before and the row after; the byte there is marked, or the file's end. */
void print_file_rows(FILE *stream, const struct buffers *buffers, size_t offset);

#endif
