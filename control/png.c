#include "png.h"
#include "deflate.h"

#include <stdlib.h>
#include <string.h>

static uint32_t crc32(const uint8_t *from, size_t length)
{
    uint32_t crc = 0xFFFFFFFF;
    for (size_t bit = 0; bit < 8 * length; bit++) {
        if (bit % 8 == 0)
            crc ^= from[bit / 8];
        crc = crc >> 1 ^ ((crc & 1) != 0 ? 0xEDB88320 : 0);
    }
    return ~crc;
}

/* Begins a chunk, and gives its place in the file. It opens with its length, which is known at its end. */
static size_t begin_chunk(struct bytes *file, const char *type)
{
    size_t chunk = file->length;
    put_number(file, 0);
    put_bytes(file, type, 4);
    return chunk;
}

static void end_chunk(struct bytes *file, size_t chunk)
{
    if (file->failed)
        return;
    size_t type = chunk + 4;
    size_t data = type + 4;
    replace_number(file, chunk, (uint32_t)(file->length - data));
    put_number(file, crc32(file->start + type, file->length - type));
}

static void put_header(struct bytes *file, uint32_t width, uint32_t height)
{
    size_t chunk = begin_chunk(file, "IHDR");
    put_number(file, width);
    put_number(file, height);
    put_bytes(file, "\x08\x03\0\0\0", 5); /* eight bits a dot, by palette, deflate, filter a row, not interlaced */
    end_chunk(file, chunk);
}

static void put_palette(struct bytes *file, const struct canvas *canvas)
{
    size_t chunk = begin_chunk(file, "PLTE");
    put_bytes(file, canvas->palette, canvas->colours * sizeof canvas->palette[0]);
    end_chunk(file, chunk);
}

/* A row as its difference from the row above (filter Up), which is zeros where a row repeats. */
static void filter_row(const struct canvas *canvas, uint32_t scale, uint32_t y, uint8_t *filtered)
{
    filtered[0] = 2;
    for (uint32_t x = 0; x < canvas->width * scale; x++) {
        uint8_t above = y > 0 ? dot_at(canvas, scale, x, y - 1) : 0;
        filtered[1 + x] = (uint8_t)(dot_at(canvas, scale, x, y) - above);
    }
}

static void put_dots(struct bytes *file, const struct canvas *canvas, uint32_t scale, uint8_t *row)
{
    size_t chunk = begin_chunk(file, "IDAT");
    struct deflate stream;
    begin_deflate(&stream, file);
    for (uint32_t y = 0; y < canvas->height * scale; y++) {
        filter_row(canvas, scale, y, row);
        deflate_bytes(&stream, row, 1 + (size_t)canvas->width * scale);
    }
    end_deflate(&stream);
    end_chunk(file, chunk);
}

void put_png(struct bytes *file, const struct canvas *canvas, uint32_t scale)
{
    uint8_t *row = malloc(1 + (size_t)canvas->width * scale);
    if (row == NULL) {
        fail_bytes(file);
        return;
    }
    put_bytes(file, PNG_SIGNATURE, strlen(PNG_SIGNATURE));
    put_header(file, canvas->width * scale, canvas->height * scale);
    put_palette(file, canvas);
    put_dots(file, canvas, scale, row);
    end_chunk(file, begin_chunk(file, "IEND"));
    free(row);
}
