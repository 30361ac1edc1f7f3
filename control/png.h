/* A drawing as a PNG file. */
#ifndef PNG_H
#define PNG_H

#include "bytes.h"
#include "canvas.h"

/* What a PNG file begins with. */
#define PNG_SIGNATURE "\x89PNG\r\n\x1A\n"

/* Each dot of the canvas becomes `scale` by `scale` dots. */
void put_png(struct bytes *file, const struct canvas *canvas, uint32_t scale);

#endif
