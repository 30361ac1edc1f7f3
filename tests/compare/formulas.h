/* Document 01's formulas for an ACX handler, with wishes 2 and 5 of document 02, written from their sentences alone: neither the product nor the
 * second implementation is used, and no file is read. What they are applied to is what make_acx put into the file. */
#ifndef FORMULAS_H
#define FORMULAS_H

#include <stdbool.h>
#include <stdint.h>

enum { PIECES_MOST = 256, CODE_MOST = 253, FIELDS_MOST = PIECES_MOST * CODE_MOST, ADDRESSES = 65536, INDEX_MOST = 65536 };

/* A code record with n code bytes. */
struct made_piece {
    uint32_t type, address, n;
};

/* One item of a fixup record. */
struct made_field {
    uint16_t piece; /* which of the pieces it lies in */
    uint8_t type, index, lsb;
};

/* A handler: its code records, the fields that its fixups list, and its end record. */
struct made {
    uint32_t piece_count, field_count;
    uint32_t start_flag, start;
    struct made_piece pieces[PIECES_MOST];
    struct made_field fields[FIELDS_MOST];
};

struct base_pair {
    uint32_t main, zero;
};

/* The numbers of an acceptance that are not zero for every handler. */
struct made_answer {
    uint32_t start_present, start, placed, adjusted;
};

/* The address of a piece's first byte, and the number of bytes of a field. */
uint32_t formulas_place(const struct made_piece *piece, struct base_pair bases);
uint32_t formulas_width(const struct made_field *field);

/* A load of the handler at these bases is accepted. */
bool formulas_accept(const struct made *made, struct base_pair bases);

/* What such a load answers, and the map that it leaves. */
struct made_answer formulas_answer(const struct made *made, struct base_pair bases);
void formulas_mark(const struct made *made, struct base_pair bases, uint8_t map[ADDRESSES]);

/* The bytes of its index, of which those that fit are written, and their number. */
uint32_t formulas_index(const struct made *made, uint8_t index[INDEX_MOST]);

/* Makes of memory before an accepted move what it is after it. */
void formulas_move(const struct made *made, struct base_pair old, struct base_pair new, uint8_t memory[ADDRESSES]);

#endif
