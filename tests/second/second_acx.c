/* "ACX records, checks in order" of document 01. The file is read and checked as a whole, on a map of its own; a load writes after that. */
#include "second_acx.h"
#include "second.h"

#include <stdio.h>
#include <stdlib.h>
#include <string.h>

/* What is known while the records are read. */
struct reading {
    const uint8_t *file;
    size_t file_length;
    size_t next;     /* the first byte not read yet */
    size_t fault_at; /* where the fault is, once there is one */
    struct judging judging;
};

struct handler *second_new_handler(void)
{
    struct handler *handler = malloc(sizeof *handler);
    if (handler == NULL) {
        fprintf(stderr, "second implementation: no memory for a handler\n");
        abort();
    }
    return handler;
}

/* "Place: main base + address (00), zero-page base + address (0A), address (01)." */
uint32_t second_place(const struct piece *piece, struct bases bases)
{
    switch (piece->type) {
    case CODE_MAIN:
        return bases.main + piece->address;
    case CODE_ZERO:
        return bases.zero + piece->address;
    default:
        return piece->address;
    }
}

/* "a byte's place is its record's place plus its index among the code bytes" */
uint32_t second_field_place(const struct handler *handler, const struct field *field, struct bases bases)
{
    return second_place(&handler->pieces[field->piece], bases) + field->index;
}

uint32_t second_width(const struct field *field)
{
    return field->type == 0x06 || field->type == 0x07 ? 2 : 1;
}

/* "The amount of a field is main base for 02, 03, 06 and 07, zero-page base for 04 and 05, floor((LSB + main base) / 256) for 08 and 09" */
uint32_t second_amount(const struct field *field, struct bases bases)
{
    switch (field->type) {
    case 0x04:
    case 0x05:
        return bases.zero;
    case 0x08:
    case 0x09:
        return (field->lsb + bases.main) / 256;
    default:
        return bases.main;
    }
}

/* "it goes off and on modulo 65,536 for words, 256 for bytes" */
void second_put_on(const struct field *field, uint8_t *at, uint32_t amount)
{
    if (second_width(field) == 2)
        second_put_word(at, (second_word(at) + amount) % 65536);
    else
        *at = (uint8_t)((*at + amount) % 256);
}

void second_take_off(const struct field *field, uint8_t *at, uint32_t amount)
{
    if (second_width(field) == 2)
        second_put_word(at, (second_word(at) + 65536 - amount % 65536) % 65536);
    else
        *at = (uint8_t)((*at + 256 - amount % 256) % 256);
}

bool second_in_range(struct bases bases)
{
    return bases.main <= 65535 && bases.zero <= 255;
}

struct judging second_begin(struct handler *handler, struct bases bases)
{
    handler->piece_count = 0;
    handler->field_count = 0;
    return (struct judging){.bases = bases, .handler = handler};
}

uint32_t second_add_piece(struct judging *judging, const struct piece *piece)
{
    /* "Place + n <= 65,536, for 0A <= 256 (10)" */
    uint32_t place = second_place(piece, judging->bases);
    if (place + piece->n > (piece->type == CODE_ZERO ? 256u : 65536u))
        return 10;
    /* "no address already placed (17)" */
    for (uint32_t i = 0; i < piece->n; i++)
        if (judging->marks[place + i] != UNTOUCHED)
            return 17;
    memset(judging->marks + place, PLACED, piece->n);
    judging->handler->pieces[judging->handler->piece_count++] = *piece;
    return 0;
}

/* "the last code record before it of the right kind (18): 02, 04, 06, 08 after 00; 03, 05, 07, 09 after 0A; none ... before any code
 * record". Document 02, wish 2: "Kinds 02, 04, 06 and 08 are to be accepted after type 01. ... Refusal 18 stays for the other kinds." */
bool second_suits(const struct handler *handler, uint32_t type)
{
    if (handler->piece_count == 0)
        return false;
    switch (handler->pieces[handler->piece_count - 1].type) {
    case CODE_MAIN:
    case CODE_ABSOLUTE:
        return type == 0x02 || type == 0x04 || type == 0x06 || type == 0x08;
    case CODE_ZERO:
        return type == 0x03 || type == 0x05 || type == 0x07 || type == 0x09;
    default:
        return false;
    }
}

/* "index inside the record, for words index + 1 too (12); no byte adjusted before (13)." */
uint32_t second_add_field(struct judging *judging, const struct field *field)
{
    struct handler *handler = judging->handler;
    uint32_t width = second_width(field);
    if (field->index + width > handler->pieces[field->piece].n)
        return 12;
    uint8_t *marks = judging->marks + second_field_place(handler, field, judging->bases);
    for (uint32_t i = 0; i < width; i++)
        if (marks[i] == ADJUSTED)
            return 13;
    memset(marks, ADJUSTED, width);
    handler->fields[handler->field_count++] = *field;
    return 0;
}

/* "flag 0 none, 1 absolute, 2 plus main base" */
static uint32_t start_of(const struct handler *handler, struct bases bases)
{
    return handler->start_flag == 2 ? handler->start_address + bases.main : handler->start_address;
}

uint32_t second_add_end(struct judging *judging, uint32_t flag, uint32_t address)
{
    judging->handler->start_flag = flag;
    judging->handler->start_address = address;
    /* "sum <= 65,535 for flags 1, 2 (20)" */
    return flag != 0 && start_of(judging->handler, judging->bases) > 65535 ? 20 : 0;
}

struct outcome second_acceptance(const struct judging *judging)
{
    const struct handler *handler = judging->handler;
    struct outcome outcome = {.number = 0, .adjusted = handler->field_count};
    for (uint32_t i = 0; i < handler->piece_count; i++)
        outcome.placed += handler->pieces[i].n;
    /* "an absent number is zero wherever it is reported or written" */
    if (handler->start_flag != 0) {
        outcome.start_present = 1;
        outcome.start = start_of(handler, judging->bases);
    }
    return outcome;
}

static bool present(const struct reading *reading, size_t count)
{
    return reading->file_length - reading->next >= count;
}

static uint32_t take_byte(struct reading *reading)
{
    return reading->file[reading->next++];
}

static uint32_t take_word(struct reading *reading)
{
    uint32_t word = second_word(reading->file + reading->next);
    reading->next += 2;
    return word;
}

/* Document 02, wish 6: "A refusal's offset should be that of the first byte of the field or item at fault". Gives the number back. */
static uint32_t fault(struct reading *reading, uint32_t number, size_t at)
{
    reading->fault_at = at;
    return number;
}

/* Wish 6: "for 5 the file's length" */
static uint32_t cut_short(struct reading *reading)
{
    return fault(reading, 5, reading->file_length);
}

/* "Code 00, 0A, 01" */
static uint32_t code_record(struct reading *reading, uint32_t type)
{
    /* "length byte present (5); 2 to 255 (9)". Wish 6: "for 9 the ... length" */
    if (!present(reading, 1))
        return cut_short(reading);
    size_t length_at = reading->next;
    uint32_t length = take_byte(reading);
    if (length < 2)
        return fault(reading, 9, length_at);
    /* "that many bytes present (5), the first two the address, the rest n code bytes, 0 to 253" */
    if (!present(reading, length))
        return cut_short(reading);
    size_t address_at = reading->next;
    struct piece piece = {.type = type, .address = take_word(reading), .n = length - 2};
    piece.code = reading->file + reading->next;
    reading->next += piece.n;
    /* Wish 6: "for 10 and 17 the address" */
    uint32_t number = second_add_piece(&reading->judging, &piece);
    return number == 0 ? 0 : fault(reading, number, address_at);
}

/* "Fixups"; the type has been read. */
static uint32_t fixup_record(struct reading *reading, uint32_t type, size_t type_at)
{
    bool with_lsb = type == 0x08 || type == 0x09;
    /* "length byte present (5); the last code record before it of the right kind (18)". Wish 6: "for 18 the type" */
    if (!present(reading, 1))
        return cut_short(reading);
    size_t length_at = reading->next;
    uint32_t length = take_byte(reading);
    struct handler *handler = reading->judging.handler;
    if (!second_suits(handler, type))
        return fault(reading, 18, type_at);
    /* "Length 1 to 253; for 08 and 09 even, 0 to 254 (9). Bytes present (5)." Wish 6: "for 9 the ... length" */
    if (with_lsb ? length % 2 != 0 || length > 254 : length < 1 || length > 253)
        return fault(reading, 9, length_at);
    if (!present(reading, length))
        return cut_short(reading);
    /* "Item by item"; "08, 09 take (index, LSB)". Wish 6: "in update bodies and fixup lists the item" */
    uint32_t item_length = with_lsb ? 2 : 1;
    for (uint32_t i = 0; i < length; i += item_length) {
        size_t item_at = reading->next;
        struct field field = {.piece = handler->piece_count - 1, .type = (uint8_t)type};
        field.index = (uint8_t)take_byte(reading);
        if (with_lsb)
            field.lsb = (uint8_t)take_byte(reading);
        uint32_t number = second_add_field(&reading->judging, &field);
        if (number != 0)
            return fault(reading, number, item_at);
    }
    return 0;
}

/* "0B" */
static uint32_t end_record(struct reading *reading)
{
    /* "flag and address present (5); flag 0 none, 1 absolute, 2 plus main base (6)" */
    if (!present(reading, 3))
        return cut_short(reading);
    size_t flag_at = reading->next;
    uint32_t flag = take_byte(reading);
    size_t address_at = reading->next;
    uint32_t address = take_word(reading);
    if (flag > 2)
        return fault(reading, 6, flag_at);
    /* Wish 6: "for 20 the start's first byte" */
    uint32_t number = second_add_end(&reading->judging, flag, address);
    if (number != 0)
        return fault(reading, number, address_at);
    /* "nothing after (19)". Wish 6: "for 19 the first byte too many" */
    if (reading->next != reading->file_length)
        return fault(reading, 19, reading->next);
    return 0;
}

/* "Disk form opens F0 FF (under two bytes 5, else 4); device form has no opening." The opening is one field, whichever byte is wrong. */
static uint32_t opening(struct reading *reading, uint32_t form)
{
    if (form == 1)
        return 0;
    if (!present(reading, 2))
        return cut_short(reading);
    if (take_byte(reading) != 0xF0 || take_byte(reading) != 0xFF)
        return fault(reading, 4, 0);
    return 0;
}

/* "Then records to the end record. Type known (5, 6)." Returns the first fault, or 0. */
static uint32_t all_records(struct reading *reading)
{
    for (;;) {
        if (!present(reading, 1))
            return cut_short(reading);
        size_t type_at = reading->next;
        uint32_t type = take_byte(reading);
        if (type > 0x0B)
            return fault(reading, 6, type_at);
        if (type == 0x0B)
            return end_record(reading);
        bool code = type == CODE_MAIN || type == CODE_ZERO || type == CODE_ABSOLUTE;
        uint32_t number = code ? code_record(reading, type) : fixup_record(reading, type, type_at);
        if (number != 0)
            return number;
    }
}

/* "1, 2, 3 come in that order, then the file from its front"; the offset is "0 for 1 to 4". Refusal 1 has been judged before. */
struct outcome second_examine(uint32_t form, const uint8_t *file, size_t file_length, struct bases bases, struct handler *handler)
{
    /* "form (0 disk, 1 device)" */
    if (form > 1 || !second_in_range(bases))
        return second_refusal(2, 0);
    if (file_length > FILE_MOST)
        return second_refusal(3, 0);
    struct reading reading = {.file = file, .file_length = file_length, .judging = second_begin(handler, bases)};
    uint32_t number = opening(&reading, form);
    if (number == 0)
        number = all_records(&reading);
    if (number != 0)
        return second_refusal(number, reading.fault_at);
    return second_acceptance(&reading.judging);
}

void second_mark(const struct handler *handler, struct bases bases, uint8_t *map)
{
    memset(map, UNTOUCHED, MEMORY_LENGTH);
    for (uint32_t i = 0; i < handler->piece_count; i++)
        memset(map + second_place(&handler->pieces[i], bases), PLACED, handler->pieces[i].n);
    for (uint32_t i = 0; i < handler->field_count; i++)
        memset(map + second_field_place(handler, &handler->fields[i], bases), ADJUSTED, second_width(&handler->fields[i]));
}

/* "06, 07: word + main base mod 65,536. 02, 03: byte + main base mod 256. 04, 05: byte + zero-page base mod 256. 08, 09 take (index, LSB):
 * byte + floor((LSB + main base) / 256), mod 256." */
static void place_handler(const struct handler *handler, struct bases bases, uint8_t *memory)
{
    for (uint32_t i = 0; i < handler->piece_count; i++)
        memcpy(memory + second_place(&handler->pieces[i], bases), handler->pieces[i].code, handler->pieces[i].n);
    for (uint32_t i = 0; i < handler->field_count; i++) {
        const struct field *field = &handler->fields[i];
        second_put_on(field, memory + second_field_place(handler, field, bases), second_amount(field, bases));
    }
}

uint32_t second_acx_load(uint32_t form, const uint8_t *file, size_t file_length, uint32_t main_base, uint32_t zero_base,
                         uint8_t *memory, size_t memory_length, uint8_t *map, size_t map_length,
                         uint8_t *answer, size_t answer_length)
{
    /* "It is written on every outcome unless its own length is wrong (1)" */
    if (answer_length != ANSWER_LENGTH)
        return 1;
    /* "Refusal 1 changes nothing but a C answer of the right length." */
    if (memory_length != MEMORY_LENGTH || map_length != MEMORY_LENGTH) {
        struct outcome outcome = second_refusal(1, 0);
        return second_report(&outcome, answer);
    }

    struct bases bases = {.main = main_base, .zero = zero_base};
    struct handler *handler = second_new_handler();
    struct outcome outcome = second_examine(form, file, file_length, bases, handler);

    /* "Every other refusal leaves memory ... as they were and the map all zero." */
    if (outcome.number != 0) {
        memset(map, UNTOUCHED, MEMORY_LENGTH);
    } else {
        place_handler(handler, bases, memory);
        second_mark(handler, bases, map);
    }
    free(handler);
    return second_report(&outcome, answer);
}

/* "Short calls of the two loaders, with form and buffers still given, take ... main base 8,192 and zero-page base 128." Document 02, wish 4:
 * "the short calls' main base becomes 9,216." */
uint32_t second_acx_load_default(uint32_t form, const uint8_t *file, size_t file_length,
                                 uint8_t *memory, size_t memory_length, uint8_t *map, size_t map_length,
                                 uint8_t *answer, size_t answer_length)
{
    return second_acx_load(form, file, file_length, 9216, 128, memory, memory_length, map, map_length, answer, answer_length);
}
