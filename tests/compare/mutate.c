#include "make.h"

#include <string.h>

static const uint8_t telling[] = {0x00, 0x01, 0x02, 0x07, 0x08, 0x0A, 0x0B, 0x0C, 0x7F, 0x80, 0xFA, 0xFB, 0xFC, 0xFD, 0xFE, 0xFF};
static const uint32_t bounds[] = {
    0, 1, 2, 255, 256, 257, 7936, 9216, 32768, 65534, 65535, 65536, 65537, 65536 + 9216, 0x80000000u, 0xFFFFFFFFu,
};

static uint8_t pick_byte(struct rng *rng)
{
    return rng_once_in(rng, 2) ? telling[rng_below(rng, sizeof telling)] : (uint8_t)rng_below(rng, 256);
}

static void cut(struct rng *rng, struct contents *file)
{
    file->length = rng_below(rng, (uint32_t)file->length + 1);
}

static void change_byte(struct rng *rng, struct contents *file)
{
    if (file->length > 0)
        file->bytes[rng_below(rng, (uint32_t)file->length)] = pick_byte(rng);
}

static void insert_byte(struct rng *rng, struct contents *file)
{
    if (file->length == CAPACITY)
        return;
    size_t at = rng_below(rng, (uint32_t)file->length + 1);
    memmove(file->bytes + at + 1, file->bytes + at, file->length - at);
    file->bytes[at] = pick_byte(rng);
    file->length++;
}

static void delete_byte(struct rng *rng, struct contents *file)
{
    if (file->length == 0)
        return;
    size_t at = rng_below(rng, (uint32_t)file->length);
    memmove(file->bytes + at, file->bytes + at + 1, file->length - at - 1);
    file->length--;
}

/* A file just too long, or far too long. */
static void lengthen(struct rng *rng, struct contents *file)
{
    size_t length = rng_once_in(rng, 2) ? 65537 : 65537 + rng_below(rng, CAPACITY - 65537);
    if (file->length < length)
        memset(file->bytes + file->length, 0, length - file->length);
    file->length = length;
}

static void change_setting(const struct making *making)
{
    enum setting setting = (enum setting)rng_below(making->rng, SETTINGS);
    making->request->settings[setting] = bounds[rng_below(making->rng, sizeof bounds / sizeof bounds[0])];
}

void mutate_length(const struct making *making)
{
    enum buffer buffer = (enum buffer)rng_between(making->rng, KNOWN_NAMES, ANSWER);
    struct contents *contents = &making->request->buffers[buffer];
    size_t length = contents->length;
    switch (rng_below(making->rng, 5)) {
    case 0:
        contents->length = 0;
        break;
    case 1:
        contents->length = length > 0 ? length - 1 : 1;
        break;
    case 2:
        contents->length = length + 1;
        break;
    case 3:
        contents->length = rng_below(making->rng, (uint32_t)length + 1);
        break;
    default:
        contents->length = rng_below(making->rng, CAPACITY);
    }
    if (contents->length > length)
        rng_fill(making->rng, contents->bytes + length, contents->length - length);
}

/* The ways to damage a file, some of them more often than others. */
enum { DAMAGES = 13 };

static void damage_by(const struct making *making, uint32_t way)
{
    struct rng *rng = making->rng;
    struct contents *file = &making->request->buffers[FILE_BYTES];
    switch (way) {
    case 0:
    case 1:
    case 2:
        cut(rng, file);
        break;
    case 3:
    case 4:
        insert_byte(rng, file);
        break;
    case 5:
    case 6:
        delete_byte(rng, file);
        break;
    case 7:
        if (rng_once_in(rng, 4))
            lengthen(rng, file);
        break;
    default:
        change_byte(rng, file);
    }
}

void damage(const struct making *making)
{
    damage_by(making, rng_below(making->rng, DAMAGES));
}

void mutate(const struct making *making)
{
    for (uint32_t i = 1 + rng_below(making->rng, 2); i > 0; i--) {
        uint32_t way = rng_below(making->rng, DAMAGES + 3);
        if (way < DAMAGES)
            damage_by(making, way);
        else if (way > DAMAGES)
            change_setting(making);
        else
            mutate_length(making);
    }
}
