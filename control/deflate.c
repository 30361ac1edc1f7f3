#include "deflate.h"

/* Symbols below END are bytes, those above it are lengths of matches. */
enum { END = 256, FIRST_LENGTH = 257, SHORTEST_MATCH = 3, LONGEST_MATCH = 258 };

/* RFC 1951, 3.2.5: the least length of each length symbol, and the extra bits that say by how much a length exceeds it. */
static const struct length {
    uint16_t least;
    uint8_t extra;
} LENGTHS[] = {
    {3, 0}, {4, 0}, {5, 0}, {6, 0}, {7, 0}, {8, 0}, {9, 0}, {10, 0}, {11, 1}, {13, 1}, {15, 1}, {17, 1}, {19, 2}, {23, 2}, {27, 2},
    {31, 2}, {35, 3}, {43, 3}, {51, 3}, {59, 3}, {67, 4}, {83, 4}, {99, 4}, {115, 4}, {131, 5}, {163, 5}, {195, 5}, {227, 5}, {258, 0},
};

enum { LENGTH_COUNT = sizeof LENGTHS / sizeof LENGTHS[0] };

/* RFC 1951, 3.2.6: symbols above the `last` of the entry before and up to this one's have codes of `bits` bits that count up to `code`. */
static const struct range {
    uint16_t last;
    uint16_t code;
    uint8_t bits;
} RANGES[] = {{143, 0xBF, 8}, {255, 0x1FF, 9}, {279, 0x17, 7}, {287, 0xC7, 8}};

static uint32_t adler32(uint32_t sum, const uint8_t *from, size_t length)
{
    uint32_t low = sum & 0xFFFF;
    uint32_t high = sum >> 16;
    for (size_t i = 0; i < length; i++) {
        low = (low + from[i]) % 65521;
        high = (high + low) % 65521;
    }
    return high << 16 | low;
}

/* Puts bits, the lowest first. */
static void put_bits(struct deflate *stream, uint32_t value, uint32_t count)
{
    stream->bits |= value << stream->held;
    stream->held += count;
    for (; stream->held >= 8; stream->held -= 8) {
        put_byte(stream->out, (uint8_t)stream->bits);
        stream->bits >>= 8;
    }
}

/* Puts the symbol's code, which goes out highest bit first. */
static void put_symbol(struct deflate *stream, uint32_t symbol)
{
    const struct range *range = RANGES;
    while (symbol > range->last)
        range++;
    uint32_t code = range->code - (range->last - symbol);
    for (uint32_t bit = range->bits; bit-- > 0;)
        put_bits(stream, code >> bit & 1, 1);
}

/* Puts a match at distance 1: the byte before, `length` times more. */
static void put_match(struct deflate *stream, uint32_t length)
{
    uint32_t i = LENGTH_COUNT - 1;
    while (length < LENGTHS[i].least)
        i--;
    put_symbol(stream, FIRST_LENGTH + i);
    put_bits(stream, length - LENGTHS[i].least, LENGTHS[i].extra);
    put_bits(stream, 0, 5); /* the code of distance 1 */
}

static void put_run(struct deflate *stream, uint8_t byte, size_t length)
{
    put_symbol(stream, byte);
    for (size_t left = length - 1, taken; left > 0; left -= taken) {
        taken = left < SHORTEST_MATCH ? 1 : left < LONGEST_MATCH ? left : LONGEST_MATCH;
        if (taken == 1)
            put_symbol(stream, byte);
        else
            put_match(stream, (uint32_t)taken);
    }
}

void begin_deflate(struct deflate *stream, struct bytes *out)
{
    *stream = (struct deflate){.out = out, .checksum = 1};
    put_bytes(out, "\x78\x01", 2); /* a window of 32 KiB, the fastest of methods */
    put_bits(stream, 1, 1);        /* the last block */
    put_bits(stream, 1, 2);        /* fixed codes */
}

void deflate_bytes(struct deflate *stream, const uint8_t *from, size_t length)
{
    stream->checksum = adler32(stream->checksum, from, length);
    for (size_t i = 0, start = 0; i < length; i++) {
        if (i + 1 < length && from[i + 1] == from[start])
            continue;
        put_run(stream, from[start], i + 1 - start);
        start = i + 1;
    }
}

void end_deflate(struct deflate *stream)
{
    put_symbol(stream, END);
    put_bits(stream, 0, 7); /* fills the last byte; what is left over are zeros */
    put_number(stream->out, stream->checksum);
}
