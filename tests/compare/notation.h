/* Bytes as the directed cases write them: hex pairs, 'text', and (groups) or single items repeated: "00*250", "(FC FF 01)*3". */
#ifndef NOTATION_H
#define NOTATION_H

#include <stdbool.h>
#include <stddef.h>
#include <stdint.h>

/* Writes the bytes and gives their count. A text that is no notation ends the process: it is a mistake in a table. */
size_t notation_bytes(const char *text, uint8_t *bytes, size_t capacity);

/* Runs of memory, "2000: 4C 03 20; 0080: 11": writes them there, or looks whether they are there. */
void notation_write(const char *runs, uint8_t *memory);
bool notation_holds(const char *runs, const uint8_t *memory);

#endif
