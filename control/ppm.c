#include "ppm.h"

#include <stdio.h>

void put_ppm(struct bytes *file, const struct canvas *canvas, uint32_t scale)
{
    uint32_t width = canvas->width * scale;
    uint32_t height = canvas->height * scale;
    char header[40];
    int length = snprintf(header, sizeof header, PPM_SIGNATURE "%u %u\n255\n", width, height);
    put_bytes(file, header, (size_t)length);
    for (uint32_t y = 0; y < height; y++)
        for (uint32_t x = 0; x < width; x++)
            put_bytes(file, canvas->palette[dot_at(canvas, scale, x, y)].parts, 3);
}
