/* A drawing as a PPM file (P6). */
#ifndef PPM_H
#define PPM_H

#include "bytes.h"
#include "canvas.h"

/* What such a file begins with. */
#define PPM_SIGNATURE "P6\n"

/* Each dot of the canvas becomes `scale` by `scale` dots. */
void put_ppm(struct bytes *file, const struct canvas *canvas, uint32_t scale);

#endif
