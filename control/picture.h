/* The map as a picture. */
#ifndef PICTURE_H
#define PICTURE_H

#include <stdbool.h>
#include <stddef.h>
#include <stdint.h>

enum { PICTURE_SCALE_MOST = 4 };

enum picture_format { PICTURE_PPM, PICTURE_PNG };

/* PNG for a name that ends in .png (either case), else PPM. */
enum picture_format picture_format_of(const char *path);

/* Whether a file is a picture of one of these formats, by its first bytes. */
bool is_picture(const uint8_t *bytes, size_t length);

/* Draws the map: a legend, and a row per page that holds something, with the page's number. `scale` (1 to PICTURE_SCALE_MOST) enlarges
 * all of it. The file's bytes are the caller's to free. False if there is no memory. */
bool draw_picture(const uint8_t *map, enum picture_format format, uint32_t scale, uint8_t **bytes, size_t *length);

#endif
