/* Random indexes: such as a builder makes of a file, and others that no file has; and files whose index is about as long as may be. */
#include "make.h"

static uint32_t pick(const struct making *making, uint32_t limit)
{
    return rng_below(making->rng, limit);
}

/* "two bytes, big-endian" */
static void put_big(const struct making *making, uint32_t word)
{
    put_byte(making, word / 256 % 256);
    put_byte(making, word % 256);
}

/* The length of an entry; by a slip one beside it, none, or any. */
static void put_length(const struct making *making, uint32_t length)
{
    if (slip(making))
        switch (pick(making, 4)) {
        case 0:
            length = 0;
            break;
        case 1:
            length = pick(making, 65536);
            break;
        default:
            length = length + pick(making, 7) - 3;
        }
    put_big(making, length);
}

/* A type, kind or flag; by a slip another. */
static void put_kind(const struct making *making, uint32_t kind)
{
    put_byte(making, slip(making) ? pick(making, rng_once_in(making->rng, 2) ? 14 : 256) : kind);
}

/* The entry of a piece with its fields, from this one on; gives the field behind them. "zero where unused", and "unused LSBs ignored": an
 * index that nobody built may have anything there. */
static uint32_t put_piece(const struct making *making, uint32_t piece, uint32_t field, bool built)
{
    const struct made *made = making->made;
    uint32_t end = field;
    while (end < made->field_count && made->fields[end].piece == piece)
        end++;
    put_length(making, 4 + 3 * (end - field));
    put_kind(making, made->pieces[piece].type);
    put_big(making, made->pieces[piece].address);
    put_byte(making, slip(making) ? 240 + pick(making, 16) : made->pieces[piece].n);
    for (; field < end; field++) {
        const struct made_field *this = &made->fields[field];
        put_kind(making, this->type);
        put_byte(making, this->index);
        put_byte(making, this->type >= 8 ? this->lsb : built ? 0 : pick(making, 256));
    }
    return end;
}

/* The end record's entry; the address of an absent start is looked at by nobody. */
static void put_end(const struct making *making, bool built)
{
    const struct made *made = making->made;
    if (slip(making))
        return;
    put_length(making, 4);
    put_kind(making, 0x0B);
    put_kind(making, made->start_flag);
    put_big(making, made->start_flag != 0 ? made->start : built ? 0 : pick(making, 65536));
    if (slip(making))
        put_random(making, 1 + pick(making, 8));
}

struct reach make_index(const struct making *making)
{
    struct reach reach = make_acx(making);
    bool built = rng_once_in(making->rng, 2);
    uint32_t field = 0;
    making->request->buffers[FILE_BYTES].length = 0;
    put_byte(making, slip(making) ? pick(making, 256) : 1);
    for (uint32_t piece = 0; piece < making->made->piece_count; piece++) {
        field = put_piece(making, piece, field, built);
        if (slip(making))
            put_big(making, pick(making, 2));
    }
    put_end(making, built);
    return reach;
}

/* A record without code costs a file four bytes and its index six, a listed byte two and three. With seven bytes for the version and the end,
 * an index is full, at 65,536 bytes, if twice its records and its fixups come to 21,843. */
struct reach make_long(const struct making *making)
{
    static const uint8_t types[] = {0x00, 0x01, 0x0A};
    uint32_t sum = 21842 + pick(making, 4), fixups = 1 + pick(making, 250);
    fixups += (sum - fixups) % 2;
    making->request->buffers[FILE_BYTES].length = 0;
    making->request->settings[FORM] = pick(making, 2);
    if (making->request->settings[FORM] == 0)
        put_word(making, 0xFFF0);
    put_byte(making, 0x00);
    put_byte(making, fixups + 2);
    put_word(making, 0);
    put_random(making, fixups);
    put_byte(making, rng_once_in(making->rng, 2) ? 0x02 : 0x04);
    put_byte(making, fixups);
    for (uint32_t i = 0; i < fixups; i++)
        put_byte(making, i);
    for (uint32_t records = (sum - fixups) / 2; records > 1; records--) {
        put_byte(making, types[pick(making, 3)]);
        put_byte(making, 2);
        put_word(making, 0);
    }
    put_byte(making, 0x0B);
    put_byte(making, pick(making, 3));
    put_word(making, pick(making, fixups));
    if (slip(making))
        put_random(making, 1 + pick(making, 4));
    return (struct reach){.main = fixups};
}
