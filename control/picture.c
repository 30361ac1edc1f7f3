#define _XOPEN_SOURCE 700

#include "picture.h"
#include "answer.h"
#include "canvas.h"
#include "png.h"
#include "ppm.h"
#include "tekoweapa.h"

#include <stdio.h>
#include <stdlib.h>
#include <string.h>
#include <strings.h>

/* A mark is its own number of colour; these are the others. */
enum { MARKS = TKW_ADJUSTED + 1, PAPER = MARKS, INK, COLOURS };

/* The marks: near black, blue, grey, amber. They differ in brightness too, for eyes that don't tell all colours apart. */
static const struct colour PALETTE[COLOURS] = {
    [TKW_UNTOUCHED] = {{0x12, 0x14, 0x1C}},
    [TKW_PLACED] = {{0x2F, 0x8C, 0xFF}},
    [TKW_RESERVED] = {{0x68, 0x68, 0x68}},
    [TKW_ADJUSTED] = {{0xFF, 0xC0, 0x20}},
    [PAPER] = {{0xF4, 0xF4, 0xF0}},
    [INK] = {{0x30, 0x34, 0x40}},
};

enum { PAGES = 256, COLUMNS = 256 };

/* In dots before it is enlarged. From the top: the legend, a ruler of columns, and the rows, in groups of pages that follow each other. */
enum {
    MARGIN = 8,
    CELL_WIDTH = 3,
    CELL_HEIGHT = 9,
    TEXT_DROP = 1, /* centres a glyph beside a cell */
    ROW_STEP = CELL_HEIGHT + 1,
    GROUP_GAP = 4,
    FIRST_COLUMN = 24, /* the page's number fits before it */
    WIDTH = FIRST_COLUMN + COLUMNS * CELL_WIDTH + MARGIN,
    LEGEND_BOTTOM = MARGIN + CELL_HEIGHT,
    LEGEND_STEP = 96,
    LEGEND_WORD = 16, /* from the swatch's left */
    SWATCH_WIDTH = 12,
    RULER_TOP = LEGEND_BOTTOM + 8,
    RULER_BOTTOM = RULER_TOP + GLYPH_HEIGHT,
    RULER_STEP = 16 /* columns */
};

enum picture_format picture_format_of(const char *path)
{
    size_t length = strlen(path);
    return length >= 4 && strcasecmp(path + length - 4, ".png") == 0 ? PICTURE_PNG : PICTURE_PPM;
}

bool is_picture(const uint8_t *bytes, size_t length)
{
    bool png = length >= strlen(PNG_SIGNATURE) && memcmp(bytes, PNG_SIGNATURE, strlen(PNG_SIGNATURE)) == 0;
    bool ppm = length >= strlen(PPM_SIGNATURE) && memcmp(bytes, PPM_SIGNATURE, strlen(PPM_SIGNATURE)) == 0;
    return png || ppm;
}

static bool page_is_empty(const uint8_t *map, uint32_t page)
{
    uint32_t column = 0;
    while (column < COLUMNS && map[page * COLUMNS + column] == TKW_UNTOUCHED)
        column++;
    return column == COLUMNS;
}

/* Finds the top of each page's row, 0 for a page left out. Returns the bottom of the last row, or of the legend where there is no row. */
static uint32_t place_rows(const uint8_t *map, uint32_t *tops)
{
    uint32_t bottom = RULER_BOTTOM;
    for (uint32_t page = 0; page < PAGES; page++) {
        tops[page] = 0;
        if (page_is_empty(map, page))
            continue;
        if (page == 0 || tops[page - 1] == 0)
            bottom += GROUP_GAP;
        tops[page] = bottom;
        bottom += ROW_STEP;
    }
    return bottom > RULER_BOTTOM ? bottom : LEGEND_BOTTOM;
}

/* Two hexadecimal digits: a page's number, or a column's. */
static void draw_number(struct canvas *canvas, uint32_t left, uint32_t top, uint32_t number)
{
    char digits[9];
    snprintf(digits, sizeof digits, "%02X", number);
    draw_text(canvas, left, top, digits, INK);
}

static void draw_legend(struct canvas *canvas)
{
    for (uint32_t mark = 0; mark < MARKS; mark++) {
        uint32_t left = FIRST_COLUMN + mark * LEGEND_STEP;
        fill_rectangle(canvas, (struct rectangle){left, MARGIN, SWATCH_WIDTH, CELL_HEIGHT}, (uint8_t)mark);
        draw_text(canvas, left + LEGEND_WORD, MARGIN + TEXT_DROP, mark_of((uint8_t)mark), INK);
    }
}

static void draw_ruler(struct canvas *canvas)
{
    for (uint32_t column = 0; column < COLUMNS; column += RULER_STEP)
        draw_number(canvas, FIRST_COLUMN + column * CELL_WIDTH, RULER_TOP, column);
}

static void draw_row(struct canvas *canvas, const uint8_t *map, uint32_t page, uint32_t top)
{
    draw_number(canvas, MARGIN, top + TEXT_DROP, page);
    for (uint32_t column = 0; column < COLUMNS; column++) {
        uint32_t left = FIRST_COLUMN + column * CELL_WIDTH;
        fill_rectangle(canvas, (struct rectangle){left, top, CELL_WIDTH, CELL_HEIGHT}, map[page * COLUMNS + column] & 3);
    }
}

static void draw_map(struct canvas *canvas, const uint8_t *map, const uint32_t *tops)
{
    fill_rectangle(canvas, (struct rectangle){0, 0, canvas->width, canvas->height}, PAPER);
    draw_legend(canvas);
    draw_ruler(canvas); /* which lies below the canvas where there is no row */
    for (uint32_t page = 0; page < PAGES; page++)
        if (tops[page] > 0)
            draw_row(canvas, map, page, tops[page]);
}

bool draw_picture(const uint8_t *map, enum picture_format format, uint32_t scale, uint8_t **bytes, size_t *length)
{
    uint32_t tops[PAGES];
    uint32_t height = place_rows(map, tops) + MARGIN;
    struct canvas canvas = {.palette = PALETTE, .colours = COLOURS, .width = WIDTH, .height = height};
    if (!make_dots(&canvas))
        return false;
    draw_map(&canvas, map, tops);
    struct bytes file = {0};
    if (format == PICTURE_PNG)
        put_png(&file, &canvas, scale);
    else
        put_ppm(&file, &canvas, scale);
    free(canvas.dots);
    *bytes = file.start;
    *length = file.length;
    return !file.failed;
}
