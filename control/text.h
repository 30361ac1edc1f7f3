/* Bytes that come from outside, as text in quotes. */
#ifndef TEXT_H
#define TEXT_H

#include <stdbool.h>
#include <stddef.h>
#include <stdint.h>
#include <stdio.h>

/* How a byte that can't be shown is written: the letters before its two hex digits, as in a list of names or as in JSON. */
#define HEX_ESCAPE "\\x"
#define JSON_ESCAPE "\\u00"

/* Prints a name of the machine: all but the plain characters of ASCII is escaped. */
void print_name(FILE *stream, const uint8_t *name, const char *escape);

/* Prints the name of a file: what is text in UTF-8 stays, control characters and all other bytes are escaped. */
void print_path(FILE *stream, const char *path, const char *escape);

/* Prints the name of a file as a message has it: as it is, or in quotes where it is empty or something in it would be escaped. */
void print_subject(FILE *stream, const char *path);

#endif
