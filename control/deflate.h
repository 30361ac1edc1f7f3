/* A zlib stream (RFC 1950): one deflate block (RFC 1951) with the fixed Huffman codes, and matches at distance 1 alone. That is little
 * code, and shortens runs of equal bytes well. */
#ifndef DEFLATE_H
#define DEFLATE_H

#include "bytes.h"

struct deflate {
    struct bytes *out;
    uint32_t bits;     /* those that don't fill a byte yet, the first lowest */
    uint32_t held;     /* how many */
    uint32_t checksum; /* Adler-32 of what came in */
};

void begin_deflate(struct deflate *stream, struct bytes *out);

/* Takes more bytes in. A run of equal bytes does not go on from one call to the next. */
void deflate_bytes(struct deflate *stream, const uint8_t *from, size_t length);

void end_deflate(struct deflate *stream);

#endif
