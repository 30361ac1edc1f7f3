/* The list of known names, as text: a line each, the name in quotes and its address. */
#ifndef NAMES_H
#define NAMES_H

#include "tekoweapa.h"

#include <stdbool.h>
#include <stddef.h>
#include <stdint.h>

/* One more than a load takes: of a list too long that much is handed on, and the loader itself refuses it. */
enum { NAMES_MOST = TKW_KNOWN_MOST + 1 };

/* Names and addresses as the loader is lent them, `lent` of each; `listed` is how many the list has. */
struct names {
    size_t listed;
    size_t lent;
    uint8_t names[NAMES_MOST * TKW_NAME_LENGTH];
    uint8_t addresses[NAMES_MOST * 2];
    size_t lines[NAMES_MOST]; /* where each stands in the list */
};

/* Reads a list of names. False after a complaint that names file and line. */
bool read_names(const char *path, struct names *names);

#endif
