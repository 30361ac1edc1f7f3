/* A drawing of dots that have few colours. */
#ifndef CANVAS_H
#define CANVAS_H

#include <stdbool.h>
#include <stddef.h>
#include <stdint.h>

enum { GLYPH_WIDTH = 5, GLYPH_HEIGHT = 7, GLYPH_STEP = 6 };

/* Red, green, blue. */
struct colour {
    uint8_t parts[3];
};

/* A palette of at most 256 colours, and row by row the number in it of each dot's colour. */
struct canvas {
    const struct colour *palette;
    uint32_t colours;
    uint32_t width;
    uint32_t height;
    uint8_t *dots;
};

struct rectangle {
    uint32_t left;
    uint32_t top;
    uint32_t width;
    uint32_t height;
};

/* Makes room for the dots, all of colour 0. The dots are the caller's to free. False if there is no memory. */
bool make_dots(struct canvas *canvas);

/* Of what is drawn, the dots outside the canvas are dropped. */
void fill_rectangle(struct canvas *canvas, struct rectangle area, uint8_t colour);

/* Draws text from the left top of its first glyph on, GLYPH_STEP dots a letter. Letters that the font has not are blank. */
void draw_text(struct canvas *canvas, uint32_t left, uint32_t top, const char *text, uint8_t colour);

/* A dot's number of colour where the drawing is enlarged: each dot is then `scale` by `scale` dots. */
static inline uint8_t dot_at(const struct canvas *canvas, uint32_t scale, uint32_t x, uint32_t y)
{
    return canvas->dots[(size_t)(y / scale) * canvas->width + x / scale];
}

#endif
