#include "text.h"
#include "tekoweapa.h"

/* The length of the character of UTF-8 at `text`, or 0: for bytes that are none, and for control characters. The text ends with a zero. */
static size_t character_length(const uint8_t *text)
{
    uint8_t first = text[0];
    uint8_t least = first == 0xC2 || first == 0xE0 ? 0xA0 : first == 0xF0 ? 0x90 : 0x80;
    uint8_t most = first == 0xED ? 0x9F : first == 0xF4 ? 0x8F : 0xBF;
    size_t length = first >= 0xF0 ? 4 : first >= 0xE0 ? 3 : 2;
    if (first < 0x80)
        return first >= 0x20 && first != 0x7F ? 1 : 0;
    if (first < 0xC2 || first > 0xF4 || text[1] < least || text[1] > most)
        return 0;
    for (size_t i = 2; i < length; i++)
        if (text[i] < 0x80 || text[i] > 0xBF)
            return 0;
    return length;
}

/* Prints a character that can be shown, or escapes the byte at `text` if its length is 0. How many bytes that were. */
static size_t print_character(FILE *stream, const uint8_t *text, size_t length, const char *escape)
{
    if (length == 0) {
        fprintf(stream, "%s%02X", escape, text[0]);
        return 1;
    }
    if (text[0] == '"' || text[0] == '\\')
        fputc('\\', stream);
    fwrite(text, 1, length, stream);
    return length;
}

void print_name(FILE *stream, const uint8_t *name, const char *escape)
{
    fputc('"', stream);
    for (int i = 0; i < TKW_NAME_LENGTH; i++)
        print_character(stream, name + i, name[i] >= 0x20 && name[i] <= 0x7E ? 1 : 0, escape);
    fputc('"', stream);
}

void print_path(FILE *stream, const char *path, const char *escape)
{
    const uint8_t *text = (const uint8_t *)path;
    fputc('"', stream);
    while (*text != 0)
        text += print_character(stream, text, character_length(text), escape);
    fputc('"', stream);
}

void print_subject(FILE *stream, const char *path)
{
    const uint8_t *text = (const uint8_t *)path;
    while (*text != 0 && character_length(text) > 0)
        text += character_length(text);
    if (path[0] != '\0' && *text == 0)
        fputs(path, stream);
    else
        print_path(stream, path, HEX_ESCAPE);
}
