#include "make.h"

bool slip(const struct making *making)
{
    return making->slips_once_in > 0 && rng_once_in(making->rng, making->slips_once_in);
}

void put_byte(const struct making *making, uint32_t byte)
{
    struct contents *file = &making->request->buffers[FILE_BYTES];
    if (file->length < CAPACITY)
        file->bytes[file->length++] = (uint8_t)byte;
}

void put_word(const struct making *making, uint32_t word)
{
    put_byte(making, word % 256);
    put_byte(making, word / 256 % 256);
}

void put_random(const struct making *making, uint32_t length)
{
    struct contents *file = &making->request->buffers[FILE_BYTES];
    uint32_t room = (uint32_t)(CAPACITY - file->length);
    if (length > room)
        length = room;
    rng_fill(making->rng, file->bytes + file->length, length);
    file->length += length;
}
