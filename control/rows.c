#include "rows.h"

#include <string.h>

/* Bytes in a row; each takes a gap and two digits, and the last has a gap behind it. */
enum { ROW = 16, WIDTH = 3 * ROW + 2 };

static const char DIGITS[] = "0123456789ABCDEF";
static const char END[] = "[end]";

/* Prints a row. Brackets around the byte at `marked` stand in the gaps, so that rows stay in line; behind the last byte they mark the end
 * of the file. A place further on is in another row, and is not marked. */
static void print_row(FILE *stream, size_t address, const uint8_t *bytes, size_t count, size_t marked)
{
    char row[WIDTH + 1];
    char text[ROW + 1] = "";
    memset(row, ' ', WIDTH);
    row[WIDTH] = '\0';
    for (size_t i = 0; i < count; i++) {
        row[3 * i + 1] = DIGITS[bytes[i] >> 4];
        row[3 * i + 2] = DIGITS[bytes[i] & 15];
        text[i] = bytes[i] >= 0x20 && bytes[i] <= 0x7E ? (char)bytes[i] : '.';
    }
    if (marked < count) {
        row[3 * marked] = '[';
        row[3 * marked + 3] = ']';
    } else if (marked == count) {
        memcpy(row + 3 * count, END, strlen(END));
    }
    /* A row without bytes has no text to stand in line. */
    fprintf(stream, "  $%04zX %.*s%s\n", address, count > 0 ? WIDTH : (int)strlen(END), row, text);
}

void print_loaded_rows(FILE *stream, const struct buffers *buffers)
{
    for (size_t from = 0, count; from < TKW_MEMORY_LENGTH; from += count > 0 ? count : 1) {
        count = 0;
        while (count < ROW && from + count < TKW_MEMORY_LENGTH && is_loaded(buffers->map[from + count]))
            count++;
        if (count > 0)
            print_row(stream, from, buffers->memory + from, count, SIZE_MAX);
    }
}

void print_file_rows(FILE *stream, const struct buffers *buffers, size_t offset)
{
    size_t row = offset / ROW * ROW;
    for (size_t from = row >= ROW ? row - ROW : row; from <= row + ROW; from += ROW) {
        size_t left = from < buffers->file_length ? buffers->file_length - from : 0;
        size_t count = left < ROW ? left : ROW;
        if (count > 0 || from == row)
            print_row(stream, from, buffers->file + from, count, from == row ? offset - row : SIZE_MAX);
    }
}
