/* The answer of a call by its nine numbers, and runs of marks in the map. */
#ifndef ANSWER_H
#define ANSWER_H

#include <stdbool.h>
#include <stddef.h>
#include <stdint.h>

struct answer {
    uint32_t number;
    uint32_t offset;
    uint32_t side;
    uint32_t start_present;
    uint32_t start;
    uint32_t placed;
    uint32_t adjusted;
    uint32_t new_names;
    uint32_t low;
};

/* Reads the 36 bytes of an answer. */
struct answer read_answer(const uint8_t *bytes);

/* A word of two bytes, low byte first. */
uint32_t read_word(const uint8_t *bytes);

/* What a mark of the map means. */
const char *mark_of(uint8_t mark);

/* Whether a mark says that its address holds a byte of the file: placed, adjusted or not. */
bool is_loaded(uint8_t mark);

/* The last address of the run of equal marks that begins at `from`. */
size_t run_end(const uint8_t *map, size_t from);

#endif
