/* Document 02, wish 5: the fixup index of a handler, built from its file, and moves by one. Everything at fault in an entry is reported at the
 * entry's first byte: "refusal offsets are those of its entries". */
#include "second.h"
#include "second_acx.h"

#include <stdlib.h>
#include <string.h>

/* "the bench lends 65,536 bytes" */
enum { INDEX_LENGTH = 65536 };

/* "one version byte, 1" */
enum { VERSION = 1 };

/* Of an entry: "type, relative or absolute address (two bytes, big-endian), code length (a byte)", or "type, flag, big-endian address"; of a
 * fixup in it: "kind, index and LSB (a byte each ...)". */
enum { HEAD_LENGTH = 4, FIXUP_LENGTH = 3, TYPE_END = 0x0B, CODE_MOST = 253 };

/* An index being written: what of it fits, and how long it is as a whole. */
struct writing {
    uint8_t bytes[INDEX_LENGTH];
    size_t length;
};

static void put_byte(struct writing *writing, uint32_t byte)
{
    if (writing->length < INDEX_LENGTH)
        writing->bytes[writing->length] = (uint8_t)byte;
    writing->length++;
}

/* "two bytes, big-endian" */
static void put_big(struct writing *writing, uint32_t word)
{
    put_byte(writing, word / 256);
    put_byte(writing, word % 256);
}

/* The piece's entry, with the fields from this one on that lie in it. Gives the field behind them. */
static uint32_t put_piece(struct writing *writing, const struct handler *handler, uint32_t piece, uint32_t field)
{
    const struct piece *this = &handler->pieces[piece];
    uint32_t end = field;
    while (end < handler->field_count && handler->fields[end].piece == piece)
        end++;
    /* "each with its length first (two bytes, big-endian, counting what follows)" */
    put_big(writing, HEAD_LENGTH + FIXUP_LENGTH * (end - field));
    put_byte(writing, this->type);
    put_big(writing, this->address);
    put_byte(writing, this->n);
    /* "then kind, index and LSB (a byte each, zero where unused) per fixup" */
    for (; field < end; field++) {
        put_byte(writing, handler->fields[field].type);
        put_byte(writing, handler->fields[field].index);
        put_byte(writing, handler->fields[field].lsb);
    }
    return end;
}

/* "one version byte, 1, then entries", "in file order". "The last entry is the end record: type, flag, big-endian address." Document 01: "an
 * absent number is zero wherever it is reported or written" */
static void put_index(struct writing *writing, const struct handler *handler)
{
    uint32_t field = 0;
    put_byte(writing, VERSION);
    for (uint32_t piece = 0; piece < handler->piece_count; piece++)
        field = put_piece(writing, handler, piece, field);
    put_big(writing, HEAD_LENGTH);
    put_byte(writing, TYPE_END);
    put_byte(writing, handler->start_flag);
    put_big(writing, handler->start_flag == 0 ? 0 : handler->start_address);
}

/* "with its load's map, answer and refusals but no memory"; "in building, after the load's refusals, 25 at offset 0 where the index wouldn't
 * fit"; "low in the answer is how many were used" */
static struct outcome build(uint32_t form, const uint8_t *file, size_t file_length, struct bases bases, struct handler *handler,
                            struct writing *writing)
{
    struct outcome outcome = second_examine(form, file, file_length, bases, handler);
    if (outcome.number != 0)
        return outcome;
    put_index(writing, handler);
    if (writing->length > INDEX_LENGTH)
        return second_refusal(25, 0);
    outcome.low = (uint32_t)writing->length;
    return outcome;
}

uint32_t second_index_build(uint32_t form, const uint8_t *file, size_t file_length, uint32_t main_base, uint32_t zero_base,
                            uint8_t *map, size_t map_length, uint8_t *index, size_t index_length, uint8_t *answer, size_t answer_length)
{
    if (answer_length != ANSWER_LENGTH)
        return 1;
    /* "the bench lends 65,536 bytes (else 1)" */
    if (map_length != MEMORY_LENGTH || index_length != INDEX_LENGTH) {
        struct outcome outcome = second_refusal(1, 0);
        return second_report(&outcome, answer);
    }

    struct bases bases = {.main = main_base, .zero = zero_base};
    struct handler *handler = second_new_handler();
    struct writing writing = {.length = 0};
    struct outcome outcome = build(form, file, file_length, bases, handler, &writing);

    /* Document 01: "Every other refusal leaves ... any other room lent for output as they were and the map all zero." "The unfilled rest of any
     * room lent for output is zero after an acceptance" */
    if (outcome.number != 0) {
        memset(map, UNTOUCHED, MEMORY_LENGTH);
    } else {
        second_mark(handler, bases, map);
        memset(index, 0, INDEX_LENGTH);
        memcpy(index, writing.bytes, writing.length);
    }
    free(handler);
    return second_report(&outcome, answer);
}

/* An entry as it stands in an index, without its length. */
struct entry {
    const uint8_t *bytes;
    uint32_t length;
};

static uint32_t big(const uint8_t *bytes)
{
    return 256u * bytes[0] + bytes[1];
}

/* The entry of a code record: "9 where its length is wrong or its code passes 253, then as for records, each fixup in turn 18 for any bad
 * kind, 12, 13, unused LSBs ignored" */
static uint32_t code_entry(struct judging *judging, struct entry entry)
{
    if (entry.length < HEAD_LENGTH || (entry.length - HEAD_LENGTH) % FIXUP_LENGTH != 0 || entry.bytes[3] > CODE_MOST)
        return 9;
    struct piece piece = {.type = entry.bytes[0], .address = big(entry.bytes + 1), .n = entry.bytes[3]};
    uint32_t number = second_add_piece(judging, &piece);
    for (uint32_t at = HEAD_LENGTH; number == 0 && at < entry.length; at += FIXUP_LENGTH) {
        const uint8_t *fixup = entry.bytes + at;
        if (!second_suits(judging->handler, fixup[0]))
            return 18;
        struct field field = {.piece = judging->handler->piece_count - 1, .type = fixup[0], .index = fixup[1], .lsb = fixup[2]};
        number = second_add_field(judging, &field);
    }
    return number;
}

/* The end record's entry: "type, flag, big-endian address". Its length (9), its flag (6), "then as for records": 20, and 19 for what is after
 * it. */
static uint32_t end_entry(struct judging *judging, struct entry entry, bool last)
{
    if (entry.length != HEAD_LENGTH)
        return 9;
    if (entry.bytes[1] > 2)
        return 6;
    uint32_t number = second_add_end(judging, entry.bytes[1], big(entry.bytes + 2));
    if (number != 0)
        return number;
    return last ? 0 : 19;
}

/* "per entry 5 if cut, 9 if empty, 6". Gives 0 or the first fault, and in *at the offset of its entry. */
static uint32_t all_entries(struct judging *judging, const uint8_t *index, size_t length, size_t *at)
{
    for (size_t next = 1;;) {
        *at = next;
        if (length - next < 2)
            return 5;
        struct entry entry = {.bytes = index + next + 2, .length = big(index + next)};
        next += 2;
        if (length - next < entry.length)
            return 5;
        if (entry.length == 0)
            return 9;
        next += entry.length;
        uint32_t type = entry.bytes[0];
        if (type == TYPE_END)
            return end_entry(judging, entry, next == length);
        if (type != CODE_MAIN && type != CODE_ZERO && type != CODE_ABSOLUTE)
            return 6;
        uint32_t number = code_entry(judging, entry);
        if (number != 0)
            return number;
    }
}

/* "1 to 3 as for a file; an empty index is 5, then 24, at offset 0, for another version". Refusal 1 has been judged before. */
static struct outcome examine_index(const uint8_t *index, size_t length, struct bases bases, struct handler *handler)
{
    if (!second_in_range(bases))
        return second_refusal(2, 0);
    if (length > FILE_MOST)
        return second_refusal(3, 0);
    if (length == 0)
        return second_refusal(5, 0);
    if (index[0] != VERSION)
        return second_refusal(24, 0);
    struct judging judging = second_begin(handler, bases);
    size_t at;
    uint32_t number = all_entries(&judging, index, length, &at);
    return number == 0 ? second_acceptance(&judging) : second_refusal(number, at);
}

/* As a move by file: judged at the old bases, then at the new, "with that number, offset and side (0 old, 1 new)". */
static struct outcome judge(const uint8_t *index, size_t length, struct bases old, struct bases new, struct handler *handler)
{
    struct outcome outcome = examine_index(index, length, old, handler);
    if (outcome.number != 0)
        return outcome;
    outcome = examine_index(index, length, new, handler);
    if (outcome.number != 0)
        outcome.side = 1;
    return outcome;
}

/* "A move by a built index must give the same memory, map and answer as one by its file"; "Any other index is itself the handler, accepted
 * where its entries are; places, fields and amounts go by them". */
uint32_t second_index_move(const uint8_t *index, size_t index_length, uint32_t old_main, uint32_t old_zero,
                           uint32_t new_main, uint32_t new_zero,
                           uint8_t *memory, size_t memory_length, uint8_t *map, size_t map_length,
                           uint8_t *scratch, size_t scratch_length, uint8_t *answer, size_t answer_length)
{
    if (answer_length != ANSWER_LENGTH)
        return 1;
    if (memory_length != MEMORY_LENGTH || map_length != MEMORY_LENGTH || scratch_length != MEMORY_LENGTH) {
        struct outcome outcome = second_refusal(1, 0);
        return second_report(&outcome, answer);
    }

    struct bases old = {.main = old_main, .zero = old_zero};
    struct bases new = {.main = new_main, .zero = new_zero};
    struct handler *handler = second_new_handler();
    struct outcome outcome = judge(index, index_length, old, new, handler);

    if (outcome.number != 0) {
        memset(map, UNTOUCHED, MEMORY_LENGTH);
    } else {
        second_move_handler(handler, old, new, memory);
        second_mark(handler, new, map);
    }
    memset(scratch, 0, MEMORY_LENGTH);
    free(handler);
    return second_report(&outcome, answer);
}
