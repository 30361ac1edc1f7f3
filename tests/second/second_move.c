/* "The mover" of document 01. */
#include "second.h"
#include "second_acx.h"

#include <stdlib.h>
#include <string.h>

/* "it is refused exactly if a load at the old bases, then one at the new, would be, with that number, offset and side (0 old, 1 new)" */
static struct outcome judge(uint32_t form, const uint8_t *file, size_t file_length, struct bases old, struct bases new,
                            struct handler *handler)
{
    struct outcome outcome = second_examine(form, file, file_length, old, handler);
    if (outcome.number != 0)
        return outcome;
    outcome = second_examine(form, file, file_length, new, handler);
    if (outcome.number != 0)
        outcome.side = 1;
    return outcome;
}

/* "Otherwise each byte of a relocatable piece goes, all at once, from old place to new. Fields are adjusted from current contents: the old
 * amount off, the new amount on, by the formulas above. ... vacated and all other bytes keep their contents." Document 02, wish 2, of absolute
 * pieces: "The mover then adjusts such fields in place and leaves the piece's other bytes." */
void second_move_handler(const struct handler *handler, struct bases old, struct bases new, uint8_t *memory)
{
    uint8_t before[MEMORY_LENGTH];
    memcpy(before, memory, MEMORY_LENGTH);
    for (uint32_t i = 0; i < handler->piece_count; i++) {
        const struct piece *piece = &handler->pieces[i];
        if (piece->type != CODE_ABSOLUTE)
            memcpy(memory + second_place(piece, new), before + second_place(piece, old), piece->n);
    }
    for (uint32_t i = 0; i < handler->field_count; i++) {
        const struct field *field = &handler->fields[i];
        uint8_t *at = memory + second_field_place(handler, field, new);
        second_take_off(field, at, second_amount(field, old));
        second_put_on(field, at, second_amount(field, new));
    }
}

uint32_t second_acx_move(uint32_t form, const uint8_t *file, size_t file_length, uint32_t old_main, uint32_t old_zero,
                         uint32_t new_main, uint32_t new_zero,
                         uint8_t *memory, size_t memory_length, uint8_t *map, size_t map_length,
                         uint8_t *scratch, size_t scratch_length, uint8_t *answer, size_t answer_length)
{
    /* "It is written on every outcome unless its own length is wrong (1)" */
    if (answer_length != ANSWER_LENGTH)
        return 1;
    /* "A wrong scratch length is 1, side 0." "Refusal 1 changes nothing but a C answer of the right length." */
    if (memory_length != MEMORY_LENGTH || map_length != MEMORY_LENGTH || scratch_length != MEMORY_LENGTH) {
        struct outcome outcome = second_refusal(1, 0);
        return second_report(&outcome, answer);
    }

    struct bases old = {.main = old_main, .zero = old_zero};
    struct bases new = {.main = new_main, .zero = new_zero};
    struct handler *handler = second_new_handler();
    struct outcome outcome = judge(form, file, file_length, old, new, handler);

    /* "The answer and map are those of a load at the new bases." A refusal leaves "the map all zero". */
    if (outcome.number != 0) {
        memset(map, UNTOUCHED, MEMORY_LENGTH);
    } else {
        second_move_handler(handler, old, new, memory);
        second_mark(handler, new, map);
    }
    /* "a scratch of 65,536 bytes, all zero after it unless refused with 1" */
    memset(scratch, 0, MEMORY_LENGTH);
    free(handler);
    return second_report(&outcome, answer);
}
