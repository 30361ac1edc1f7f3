/* What the SDX and the ACX half of the second implementation have in common: words, marks, and the answer. */
#ifndef SECOND_COMMON_H
#define SECOND_COMMON_H

#include <stddef.h>
#include <stdint.h>

/* "Program memory is a lent run of 65,536 bytes"; "The file, at most 65,536 bytes"; "an answer of 36 bytes" */
enum { MEMORY_LENGTH = 65536, FILE_MOST = 65536, ANSWER_LENGTH = 36 };

/* "0 untouched, 1 placed, 2 reserved, 3 adjusted" */
enum { UNTOUCHED = 0, PLACED = 1, RESERVED = 2, ADJUSTED = 3 };

/* "nine four-byte numbers, low byte first, in the order number, offset, side, start present (1 or 0), start address, placed, adjusted,
 * new names, low" */
struct outcome {
    uint32_t number, offset, side, start_present, start, placed, adjusted, new_names, low;
};

/* "two-byte numbers in files are low byte first" */
uint32_t second_word(const uint8_t *bytes);
void second_put_word(uint8_t *bytes, uint32_t word);

/* "A refusal reports its number and the offset ..., all else zero." Document 02, wish 6: "A refusal's offset should be that of the first byte
 * of the field or item at fault". */
struct outcome second_refusal(uint32_t number, size_t offset);

/* Writes the answer; "the number is also returned". */
uint32_t second_report(const struct outcome *outcome, uint8_t *answer);

#endif
