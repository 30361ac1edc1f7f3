/* "SDX blocks, checks in order" of document 01. Everything is done on a copy of memory and on rooms of its own; the lent ones are written
 * once the whole file has been accepted. */
#include "second.h"
#include "second_common.h"

#include <stdbool.h>
#include <string.h>

enum { NAME_LENGTH = 8, KNOWN_MOST = 256, NEW_MOST = 32, BLOCK_NUMBERS = 8, BLOCKS_MOST = 7 };
enum { COUNTER_UNSET = -1 };

struct block {
    bool there;
    uint32_t address, offset, length;
};

struct load {
    const uint8_t *file;
    size_t file_length;
    size_t next;     /* the first byte not read yet */
    size_t fault_at; /* where the fault is, once there is one */
    uint32_t low, high;
    const uint8_t *known_names, *known_addresses;
    size_t known_count;
    struct block blocks[BLOCK_NUMBERS];
    uint32_t block_count;
    uint8_t new_names[NEW_MOST * NAME_LENGTH];
    uint8_t new_addresses[NEW_MOST * 2];
    uint32_t new_count;
    uint32_t placed, adjusted;
    uint8_t memory[MEMORY_LENGTH], map[MEMORY_LENGTH];
};

static bool present(const struct load *load, size_t count)
{
    return load->file_length - load->next >= count;
}

static uint32_t take_byte(struct load *load)
{
    return load->file[load->next++];
}

static uint32_t take_word(struct load *load)
{
    uint32_t word = second_word(load->file + load->next);
    load->next += 2;
    return word;
}

/* Document 02, wish 6: "A refusal's offset should be that of the first byte of the field or item at fault". Gives the number back. */
static uint32_t fault(struct load *load, uint32_t number, size_t at)
{
    load->fault_at = at;
    return number;
}

/* Wish 6: "for 5 the file's length" */
static uint32_t cut_short(struct load *load)
{
    return fault(load, 5, load->file_length);
}

/* "Bytes placed is the sum of all data lengths, overwritten ones included." */
static void place(struct load *load, uint32_t address, uint32_t length)
{
    memcpy(load->memory + address, load->file + load->next, length);
    memset(load->map + address, PLACED, length);
    load->next += length;
    load->placed += length;
}

/* "FFFF or FFFA, or no marker: plain." `start_read` says that the start was the block's first word. */
static uint32_t plain_block(struct load *load, bool start_read, uint32_t start)
{
    /* "Start and end present (5)" */
    if (!present(load, start_read ? 2 : 4))
        return cut_short(load);
    if (!start_read)
        start = take_word(load);
    size_t end_at = load->next;
    uint32_t end = take_word(load);
    /* "end >= start (9)". Wish 6: "for 9 the end word" */
    if (end < start)
        return fault(load, 9, end_at);
    /* "end - start + 1 bytes present (5)" */
    if (!present(load, end - start + 1))
        return cut_short(load);
    /* "Placed there." */
    place(load, start, end - start + 1);
    return 0;
}

/* "FFFE: relocatable." */
static uint32_t relocatable_block(struct load *load)
{
    /* "Number, id, offset word, length word present (5)" */
    if (!present(load, 6))
        return cut_short(load);
    size_t number_at = load->next;
    uint32_t number = take_byte(load);
    size_t id_at = load->next;
    uint32_t id = take_byte(load);
    uint32_t offset = take_word(load);
    size_t length_at = load->next;
    uint32_t length = take_word(load);
    /* "number <= 7 (6)" */
    if (number > 7)
        return fault(load, 6, number_at);
    /* "id hex 00, or 80 for reserve only (6)" */
    if (id != 0x00 && id != 0x80)
        return fault(load, 6, id_at);
    bool reserving = id == 0x80;
    /* "number new and fewer than seven blocks so far (7)"; the field at fault is the number for both */
    if (load->blocks[number].there || load->block_count >= BLOCKS_MOST)
        return fault(load, 7, number_at);
    /* "unless reserving, data present (5)" */
    if (!reserving && !present(load, length))
        return cut_short(load);
    /* "low + length <= high (10)". Wish 6: "for 10 ... in SDX, the length word" */
    if (load->low + length > load->high)
        return fault(load, 10, length_at);
    /* "It gets address low; low rises by the length. Reserving marks 2 and writes nothing. Length 0 is allowed." */
    load->blocks[number] = (struct block){.there = true, .address = load->low, .offset = offset, .length = length};
    load->block_count++;
    if (reserving)
        memset(load->map + load->low, RESERVED, length);
    else
        place(load, load->low, length);
    load->low += length;
    return 0;
}

/* The checks of an item from the counter on, and the adjusting: "word grows by" the amount, "modulo 65,536". Gives the number alone. */
static uint32_t adjust(struct load *load, int32_t counter, uint32_t amount)
{
    /* "counter at most ... 65,534 to adjust (11)" */
    if (counter > 65534)
        return 11;
    uint8_t *bytes = load->memory + counter;
    uint8_t *marks = load->map + counter;
    /* "both bytes marked 1 or 3 (12)" */
    for (int i = 0; i < 2; i++)
        if (marks[i] != PLACED && marks[i] != ADJUSTED)
            return 12;
    /* "neither marked 3 (13)" */
    if (marks[0] == ADJUSTED || marks[1] == ADJUSTED)
        return 13;
    second_put_word(bytes, (second_word(bytes) + amount) % 65536);
    marks[0] = marks[1] = ADJUSTED;
    load->adjusted++;
    return 0;
}

/* One item other than FC, all of it present: "for FE, number (6), block there (8); counter set where one is added (11); counter at most
 * 65,535, or 65,534 to adjust (11)". Gives the number alone. */
static uint32_t update_item(struct load *load, uint32_t item, int32_t *counter, uint32_t amount)
{
    /* "FD with a word sets the counter there and adjusts." */
    if (item == 0xFD) {
        *counter = (int32_t)take_word(load);
        return adjust(load, *counter, amount);
    }
    /* "FE with a number sets it to that block's address and adjusts nothing." */
    if (item == 0xFE) {
        uint32_t number = take_byte(load);
        if (number > 7)
            return 6;
        if (!load->blocks[number].there)
            return 8;
        *counter = (int32_t)load->blocks[number].address;
        return 0;
    }
    /* "00 to FB adds that amount, then adjusts the word at the counter." "FF adds 250 and adjusts nothing." */
    if (*counter == COUNTER_UNSET)
        return 11;
    if (item == 0xFF) {
        *counter += 250;
        return *counter > 65535 ? 11 : 0;
    }
    *counter += (int32_t)item;
    return adjust(load, *counter, amount);
}

/* "Update bodies: the counter is unset at each body's start." "FC ends." */
static uint32_t update_body(struct load *load, uint32_t amount)
{
    int32_t counter = COUNTER_UNSET;
    for (;;) {
        /* "Each item: present (5)"; "FD with a word", "FE with a number" */
        if (!present(load, 1))
            return cut_short(load);
        size_t item_at = load->next;
        uint32_t item = take_byte(load);
        if (item == 0xFC)
            return 0;
        if (!present(load, item == 0xFD ? 2 : item == 0xFE ? 1 : 0))
            return cut_short(load);
        /* Wish 6: "in update bodies and fixup lists the item" */
        uint32_t number = update_item(load, item, &counter, amount);
        if (number != 0)
            return fault(load, number, item_at);
    }
}

/* "FFFD: update." */
static uint32_t update_block(struct load *load)
{
    /* "Number and length word present (5)" */
    if (!present(load, 3))
        return cut_short(load);
    size_t number_at = load->next;
    uint32_t number = take_byte(load);
    /* "The length is ignored." */
    take_word(load);
    /* "number <= 7 (6); block there (8)" */
    if (number > 7)
        return fault(load, 6, number_at);
    if (!load->blocks[number].there)
        return fault(load, 8, number_at);
    /* "Each listed word grows by block address - block offset, modulo 65,536." */
    return update_body(load, (load->blocks[number].address + 65536 - load->blocks[number].offset) % 65536);
}

/* "The newest definition holds: this file's, latest first, then the lent list from its end." */
static bool find_name(const struct load *load, const uint8_t *name, uint32_t *address)
{
    for (size_t i = load->new_count; i > 0; i--)
        if (memcmp(load->new_names + (i - 1) * NAME_LENGTH, name, NAME_LENGTH) == 0) {
            *address = second_word(load->new_addresses + (i - 1) * 2);
            return true;
        }
    for (size_t i = load->known_count; i > 0; i--)
        if (memcmp(load->known_names + (i - 1) * NAME_LENGTH, name, NAME_LENGTH) == 0) {
            *address = second_word(load->known_addresses + (i - 1) * 2);
            return true;
        }
    return false;
}

/* "FFFB: names." */
static uint32_t names_block(struct load *load)
{
    /* "Eight-byte name and length word present (5)" */
    if (!present(load, NAME_LENGTH + 2))
        return cut_short(load);
    size_t name_at = load->next;
    load->next += NAME_LENGTH;
    take_word(load);
    /* "name known (14)". Wish 6: "for 14 and 15 the name" */
    uint32_t address;
    if (!find_name(load, load->file + name_at, &address))
        return fault(load, 14, name_at);
    /* "Each listed word grows by its address, modulo 65,536." */
    return update_body(load, address);
}

/* "FFFC: new name." */
static uint32_t new_name_block(struct load *load)
{
    /* "Number, offset word, name present (5)" */
    if (!present(load, 3 + NAME_LENGTH))
        return cut_short(load);
    size_t number_at = load->next;
    uint32_t number = take_byte(load);
    size_t offset_at = load->next;
    uint32_t offset = take_word(load);
    size_t name_at = load->next;
    load->next += NAME_LENGTH;
    /* "number <= 7 (6); block there (8)" */
    if (number > 7)
        return fault(load, 6, number_at);
    const struct block *block = &load->blocks[number];
    if (!block->there)
        return fault(load, 8, number_at);
    /* "0 <= offset - block offset < length (16)" */
    if (offset < block->offset || offset - block->offset >= block->length)
        return fault(load, 16, offset_at);
    /* "at most 32 (15)". Wish 6: "for 14 and 15 the name" */
    if (load->new_count == NEW_MOST)
        return fault(load, 15, name_at);
    /* "Its address is block address + offset - block offset." "New names and addresses stand in file order." */
    memcpy(load->new_names + load->new_count * NAME_LENGTH, load->file + name_at, NAME_LENGTH);
    second_put_word(load->new_addresses + load->new_count * 2, block->address + offset - block->offset);
    load->new_count++;
    return 0;
}

/* One block. "The first word must be FFFA to FFFF, else 4. Later, a word below FFFA is the start address of a plain block without marker;
 * from FFFA it is a marker." */
static uint32_t one_block(struct load *load)
{
    /* "One leftover byte, or an empty file, is 5." */
    if (!present(load, 2))
        return cut_short(load);
    bool first = load->next == 0;
    uint32_t word = take_word(load);
    if (first && word < 0xFFFA)
        return fault(load, 4, 0);
    switch (word) {
    case 0xFFFA:
    case 0xFFFF:
        return plain_block(load, false, 0);
    case 0xFFFB:
        return names_block(load);
    case 0xFFFC:
        return new_name_block(load);
    case 0xFFFD:
        return update_block(load);
    case 0xFFFE:
        return relocatable_block(load);
    default:
        return plain_block(load, true, word);
    }
}

/* "A file is blocks until its end." Returns the first fault, or 0. */
static uint32_t all_blocks(struct load *load)
{
    do {
        uint32_t number = one_block(load);
        if (number != 0)
            return number;
    } while (load->next < load->file_length);
    return 0;
}

/* "The start is the word at 02E0 if both its bytes end marked 1 or 3, else absent." */
static bool has_start(const struct load *load)
{
    for (int address = 0x02E0; address <= 0x02E1; address++)
        if (load->map[address] != PLACED && load->map[address] != ADJUSTED)
            return false;
    return true;
}

/* "An acceptance reports number 0, the start (present or not, address), the number of bytes placed and of fields adjusted, and for SDX the
 * number of new names and low afterwards." */
static struct outcome acceptance(const struct load *load)
{
    struct outcome outcome = {
        .placed = load->placed, .adjusted = load->adjusted, .new_names = load->new_count, .low = load->low,
    };
    if (has_start(load)) {
        outcome.start_present = 1;
        outcome.start = second_word(load->memory + 0x02E0);
    }
    return outcome;
}

/* "1, 2, 3 come in that order, then the file from its front"; the offset is "0 for 1 to 4". Refusal 1 has been judged before. */
static struct outcome judge(struct load *load)
{
    /* "low and high, with low <= high <= 65,535" */
    if (load->low > load->high || load->high > 65535)
        return second_refusal(2, 0);
    if (load->file_length > FILE_MOST)
        return second_refusal(3, 0);
    uint32_t number = all_blocks(load);
    if (number != 0)
        return second_refusal(number, load->fault_at);
    return acceptance(load);
}

uint32_t second_sdx_load(const uint8_t *file, size_t file_length, uint32_t low, uint32_t high,
                         const uint8_t *known_names, size_t known_names_length,
                         const uint8_t *known_addresses, size_t known_addresses_length,
                         uint8_t *memory, size_t memory_length, uint8_t *map, size_t map_length,
                         uint8_t *new_names, size_t new_names_length, uint8_t *new_addresses, size_t new_addresses_length,
                         uint8_t *answer, size_t answer_length)
{
    /* "It is written on every outcome unless its own length is wrong (1)" */
    if (answer_length != ANSWER_LENGTH)
        return 1;
    /* "memory, map, scratch, new-name buffers or C answer of another length; known names not eight bytes per address, or over 256";
     * "an odd length is 1". "Refusal 1 changes nothing but a C answer of the right length." */
    size_t known_count = known_addresses_length / 2;
    if (memory_length != MEMORY_LENGTH || map_length != MEMORY_LENGTH || new_names_length != NEW_MOST * NAME_LENGTH ||
        new_addresses_length != NEW_MOST * 2 || known_addresses_length % 2 != 0 || known_count > KNOWN_MOST ||
        known_names_length != known_count * NAME_LENGTH) {
        struct outcome outcome = second_refusal(1, 0);
        return second_report(&outcome, answer);
    }

    struct load load = {
        .file = file, .file_length = file_length, .low = low, .high = high,
        .known_names = known_names, .known_addresses = known_addresses, .known_count = known_count,
    };
    memcpy(load.memory, memory, MEMORY_LENGTH);
    struct outcome outcome = judge(&load);

    /* "Every other refusal leaves memory, new-name buffers and any other room lent for output as they were and the map all zero."
     * "The unfilled rest of any room lent for output is zero after an acceptance". */
    if (outcome.number != 0) {
        memset(map, UNTOUCHED, MEMORY_LENGTH);
    } else {
        memcpy(memory, load.memory, MEMORY_LENGTH);
        memcpy(map, load.map, MEMORY_LENGTH);
        memcpy(new_names, load.new_names, sizeof load.new_names);
        memcpy(new_addresses, load.new_addresses, sizeof load.new_addresses);
    }
    return second_report(&outcome, answer);
}

/* "Short calls of the two loaders, with form and buffers still given, take low 7,936, high 39,936" */
uint32_t second_sdx_load_default(const uint8_t *file, size_t file_length,
                                 const uint8_t *known_names, size_t known_names_length,
                                 const uint8_t *known_addresses, size_t known_addresses_length,
                                 uint8_t *memory, size_t memory_length, uint8_t *map, size_t map_length,
                                 uint8_t *new_names, size_t new_names_length, uint8_t *new_addresses, size_t new_addresses_length,
                                 uint8_t *answer, size_t answer_length)
{
    return second_sdx_load(file, file_length, 7936, 39936, known_names, known_names_length, known_addresses, known_addresses_length,
                           memory, memory_length, map, map_length, new_names, new_names_length, new_addresses, new_addresses_length,
                           answer, answer_length);
}
