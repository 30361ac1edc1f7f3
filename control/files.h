/* Reading whole files. */
#ifndef FILES_H
#define FILES_H

#include <stdbool.h>
#include <stddef.h>
#include <stdint.h>

/* The name that stands for standard input. */
bool is_standard_input(const char *path);

/* The name by which messages call a file. */
const char *shown_name(const char *path);

/* Reads a file, or its first `most` bytes if it is longer. False after a complaint. */
bool read_file(const char *path, uint8_t *bytes, size_t most, size_t *length);

#endif
