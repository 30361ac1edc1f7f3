/* A handler as read, from an ACX file or from an index: its pieces of code, the fields that its fixups list, and its end record. None of these
 * depend on the bases; where a piece lies and what a field is adjusted by do. All that the second implementation does with ACX works from it. */
#ifndef SECOND_ACX_H
#define SECOND_ACX_H

#include "second_common.h"

#include <stdbool.h>

/* A code record takes at least four bytes of the file, a listed field at least one; in an index both take more. */
enum { PIECES_MOST = FILE_MOST / 4, FIELDS_MOST = FILE_MOST };

/* The types of code records. */
enum { CODE_MAIN = 0x00, CODE_ABSOLUTE = 0x01, CODE_ZERO = 0x0A };

struct bases {
    uint32_t main, zero;
};

struct piece {
    uint32_t type, address;
    const uint8_t *code; /* its n code bytes in the file; an index has none */
    uint32_t n;
};

struct field {
    uint32_t piece; /* which of the pieces it lies in */
    uint8_t type, index, lsb;
};

struct handler {
    struct piece pieces[PIECES_MOST];
    uint32_t piece_count;
    struct field fields[FIELDS_MOST];
    uint32_t field_count;
    uint32_t start_flag, start_address; /* as the end record has them */
};

/* Records or entries, judged one after the other at a pair of bases. */
struct judging {
    struct bases bases;
    struct handler *handler;      /* what they have come to so far */
    uint8_t marks[MEMORY_LENGTH]; /* PLACED and ADJUSTED, as that says */
};

/* A handler to read into; ends the program if there is no memory for it. Given back with free. */
struct handler *second_new_handler(void);

/* Reads the file into the handler, with all the checks of a load at these bases. The outcome is that of such a load. */
struct outcome second_examine(uint32_t form, const uint8_t *file, size_t file_length, struct bases bases, struct handler *handler);

/* "main base 0 to 65,535, zero-page base 0 to 255" */
bool second_in_range(struct bases bases);

/* Empties the handler, for records or entries to come. */
struct judging second_begin(struct handler *handler, struct bases bases);

/* Fixups of this kind suit the last piece. */
bool second_suits(const struct handler *handler, uint32_t type);

/* Add a piece, a field of the last piece, and the end. They give 0 or the number of the first fault: 10 and 17, 12 and 13, 20. */
uint32_t second_add_piece(struct judging *judging, const struct piece *piece);
uint32_t second_add_field(struct judging *judging, const struct field *field);
uint32_t second_add_end(struct judging *judging, uint32_t flag, uint32_t address);

/* What an acceptance of the whole handler reports. */
struct outcome second_acceptance(const struct judging *judging);

/* The address of a piece's first byte, and of a field's. */
uint32_t second_place(const struct piece *piece, struct bases bases);
uint32_t second_field_place(const struct handler *handler, const struct field *field, struct bases bases);

/* 2 for the fields of 06 and 07, else 1. */
uint32_t second_width(const struct field *field);

/* What a load at these bases adds to the field. */
uint32_t second_amount(const struct field *field, struct bases bases);

/* Adds to the word or byte at the address, "modulo 65,536 for words, 256 for bytes". */
void second_put_on(const struct field *field, uint8_t *at, uint32_t amount);
void second_take_off(const struct field *field, uint8_t *at, uint32_t amount);

/* The marks that a load of the handler at these bases leaves. */
void second_mark(const struct handler *handler, struct bases bases, uint8_t *map);

/* Moves the handler, which is accepted at both pairs of bases. */
void second_move_handler(const struct handler *handler, struct bases old, struct bases new, uint8_t *memory);

#endif
