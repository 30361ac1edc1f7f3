#include "formulas.h"

#include <string.h>

/* "Place: main base + address (00), zero-page base + address (0A), address (01)." */
uint32_t formulas_place(const struct made_piece *piece, struct base_pair bases)
{
    return piece->address + (piece->type == 0x00 ? bases.main : piece->type == 0x0A ? bases.zero : 0);
}

/* "a byte's place is its record's place plus its index among the code bytes" */
static uint32_t field_place(const struct made *made, const struct made_field *field, struct base_pair bases)
{
    return formulas_place(&made->pieces[field->piece], bases) + field->index;
}

/* "06, 07: word", all others "byte" */
uint32_t formulas_width(const struct made_field *field)
{
    return field->type == 0x06 || field->type == 0x07 ? 2 : 1;
}

/* "The amount of a field is main base for 02, 03, 06 and 07, zero-page base for 04 and 05, floor((LSB + main base) / 256) for 08 and 09" */
static uint32_t amount(const struct made_field *field, struct base_pair bases)
{
    if (field->type >= 0x08)
        return (field->lsb + bases.main) / 256;
    return field->type == 0x04 || field->type == 0x05 ? bases.zero : bases.main;
}

static bool share_an_address(const struct made_piece *one, const struct made_piece *other, struct base_pair bases)
{
    uint32_t here = formulas_place(one, bases), there = formulas_place(other, bases);
    return one->n > 0 && other->n > 0 && here < there + other->n && there < here + one->n;
}

/* "Place + n <= 65,536, for 0A <= 256 (10); no address already placed (17)." */
static bool piece_fits(const struct made *made, uint32_t piece, struct base_pair bases)
{
    const struct made_piece *this = &made->pieces[piece];
    if (formulas_place(this, bases) + this->n > (this->type == 0x0A ? 256 : 65536))
        return false;
    for (uint32_t i = 0; i < piece; i++)
        if (share_an_address(&made->pieces[i], this, bases))
            return false;
    return true;
}

/* "flag 0 none, 1 absolute, 2 plus main base" */
static uint32_t start_sum(const struct made *made, struct base_pair bases)
{
    return made->start + (made->start_flag == 2 ? bases.main : 0);
}

/* "main base 0 to 65,535, zero-page base 0 to 255"; the pieces fit; "sum <= 65,535 for flags 1, 2 (20)". The other checks do not go by the
 * bases, and make_acx keeps to them where it makes no slips. */
bool formulas_accept(const struct made *made, struct base_pair bases)
{
    if (bases.main > 65535 || bases.zero > 255)
        return false;
    for (uint32_t i = 0; i < made->piece_count; i++)
        if (!piece_fits(made, i, bases))
            return false;
    return made->start_flag == 0 || start_sum(made, bases) <= 65535;
}

/* "Bytes placed is the sum of all data lengths". "an absent number is zero wherever it is reported or written" */
struct made_answer formulas_answer(const struct made *made, struct base_pair bases)
{
    struct made_answer answer = {.adjusted = made->field_count};
    for (uint32_t i = 0; i < made->piece_count; i++)
        answer.placed += made->pieces[i].n;
    if (made->start_flag != 0) {
        answer.start_present = 1;
        answer.start = start_sum(made, bases);
    }
    return answer;
}

/* "0 untouched, 1 placed, 2 reserved, 3 adjusted. The last event at an address decides." */
void formulas_mark(const struct made *made, struct base_pair bases, uint8_t map[ADDRESSES])
{
    memset(map, 0, ADDRESSES);
    for (uint32_t i = 0; i < made->piece_count; i++)
        memset(map + formulas_place(&made->pieces[i], bases), 1, made->pieces[i].n);
    for (uint32_t i = 0; i < made->field_count; i++)
        memset(map + field_place(made, &made->fields[i], bases), 3, formulas_width(&made->fields[i]));
}

/* "each byte of a relocatable piece goes, all at once, from old place to new" */
static void move_piece(const struct made_piece *piece, struct base_pair old, struct base_pair new, const uint8_t *before, uint8_t *after)
{
    if (piece->type != 0x01)
        memcpy(after + formulas_place(piece, new), before + formulas_place(piece, old), piece->n);
}

/* "Fields are adjusted from current contents: the old amount off, the new amount on", "modulo 65,536 for words, 256 for bytes". Unsigned
 * numbers here are modulo a multiple of both. */
static void move_field(const struct made_field *field, struct base_pair old, struct base_pair new, const uint8_t *before, uint8_t *after)
{
    bool word = formulas_width(field) == 2;
    uint32_t contents = word ? before[0] + 256u * before[1] : before[0];
    contents = contents - amount(field, old) + amount(field, new);
    after[0] = (uint8_t)(contents % 256);
    if (word)
        after[1] = (uint8_t)(contents / 256 % 256);
}

/* "vacated and all other bytes keep their contents"; document 02, wish 2, of absolute pieces: "adjusts such fields in place and leaves the
 * piece's other bytes" */
void formulas_move(const struct made *made, struct base_pair old, struct base_pair new, uint8_t memory[ADDRESSES])
{
    uint8_t before[ADDRESSES];
    memcpy(before, memory, ADDRESSES);
    for (uint32_t i = 0; i < made->piece_count; i++)
        move_piece(&made->pieces[i], old, new, before, memory);
    for (uint32_t i = 0; i < made->field_count; i++) {
        const struct made_field *field = &made->fields[i];
        move_field(field, old, new, before + field_place(made, field, old), memory + field_place(made, field, new));
    }
}

/* "An entry is a code record: type, relative or absolute address (two bytes, big-endian), code length (a byte), then kind, index and LSB (a
 * byte each, zero where unused) per fixup." Gives the byte at a place in the entry, which begins with its length, "counting what follows". */
static uint8_t entry_byte(const struct made *made, uint32_t piece, uint32_t first_field, uint32_t field_count, uint32_t at)
{
    const struct made_piece *this = &made->pieces[piece];
    uint32_t length = 4 + 3 * field_count;
    const uint32_t head[] = {length / 256, length % 256, this->type, this->address / 256, this->address % 256, this->n};
    if (at < 6)
        return (uint8_t)head[at];
    const struct made_field *field = &made->fields[first_field + (at - 6) / 3];
    return at % 3 == 0 ? field->type : at % 3 == 1 ? field->index : field->type >= 0x08 ? field->lsb : 0;
}

/* "one version byte, 1, then entries", "in file order". "The last entry is the end record: type, flag, big-endian address." */
uint32_t formulas_index(const struct made *made, uint8_t index[INDEX_MOST])
{
    uint32_t length = 0, field = 0;
    index[length++] = 1;
    for (uint32_t piece = 0; piece < made->piece_count; piece++) {
        uint32_t count = 0;
        while (field + count < made->field_count && made->fields[field + count].piece == piece)
            count++;
        for (uint32_t at = 0; at < 6 + 3 * count; at++, length++)
            if (length < INDEX_MOST)
                index[length] = entry_byte(made, piece, field, count, at);
        field += count;
    }
    uint32_t start = made->start_flag == 0 ? 0 : made->start;
    const uint32_t end[] = {0, 4, 0x0B, made->start_flag, start / 256, start % 256};
    for (uint32_t at = 0; at < 6; at++, length++)
        if (length < INDEX_MOST)
            index[length] = (uint8_t)end[at];
    return length;
}
