#include "bytes.h"

#include <stdlib.h>
#include <string.h>

enum { FIRST_ROOM = 4096 };

void fail_bytes(struct bytes *bytes)
{
    free(bytes->start);
    *bytes = (struct bytes){.failed = true};
}

/* Makes room for `more` bytes. It at least doubles, so that bytes put one by one are not copied again and again. */
static bool make_room(struct bytes *bytes, size_t more)
{
    if (bytes->failed || more <= bytes->room - bytes->length)
        return !bytes->failed;
    size_t room = FIRST_ROOM + 2 * bytes->room + more;
    uint8_t *start = realloc(bytes->start, room);
    if (start == NULL) {
        fail_bytes(bytes);
        return false;
    }
    bytes->start = start;
    bytes->room = room;
    return true;
}

void put_bytes(struct bytes *bytes, const void *from, size_t length)
{
    if (!make_room(bytes, length))
        return;
    memcpy(bytes->start + bytes->length, from, length);
    bytes->length += length;
}

void put_byte(struct bytes *bytes, uint8_t byte)
{
    put_bytes(bytes, &byte, 1);
}

void put_number(struct bytes *bytes, uint32_t number)
{
    size_t at = bytes->length;
    put_bytes(bytes, &number, sizeof number);
    replace_number(bytes, at, number);
}

void replace_number(struct bytes *bytes, size_t at, uint32_t number)
{
    if (bytes->failed)
        return;
    for (size_t i = 0; i < 4; i++)
        bytes->start[at + i] = (uint8_t)(number >> (24 - 8 * i));
}
