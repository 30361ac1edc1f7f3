#include "names.h"
#include "errors.h"
#include "files.h"
#include "number.h"

#include <stdlib.h>
#include <string.h>

/* The longest list that is read: room for every name with a long comment. */
enum { TEXT_MOST = 1 << 20 };

/* Some editors begin a text in UTF-8 with this mark. */
static const char BYTE_ORDER_MARK[] = "\xEF\xBB\xBF";

/* What is left of a line, and which line it is. */
struct line {
    const char *path;
    size_t number;
    const char *at;
    const char *end;
};

static bool is_blank(char character)
{
    return character == ' ' || character == '\t' || character == '\r';
}

static void skip_blanks(struct line *line)
{
    while (line->at < line->end && is_blank(*line->at))
        line->at++;
}

/* Whether nothing is left of the line, or a comment alone. */
static bool is_over(const struct line *line)
{
    return line->at == line->end || *line->at == '#';
}

/* Takes one byte of a name: itself, or an escape. */
static bool take_byte(struct line *line, uint8_t *byte)
{
    char character = *line->at++;
    if (character == '\\') {
        size_t left = (size_t)(line->end - line->at);
        if (left >= 3 && line->at[0] == 'x' && digit_value(line->at[1], 16) >= 0 && digit_value(line->at[2], 16) >= 0) {
            *byte = (uint8_t)(digit_value(line->at[1], 16) * 16 + digit_value(line->at[2], 16));
            line->at += 3;
            return true;
        }
        if (left < 1 || (line->at[0] != '"' && line->at[0] != '\\'))
            return false;
        character = *line->at++;
    }
    *byte = (uint8_t)character;
    return true;
}

/* Takes a name in quotes. False after a complaint. */
static bool take_name(struct line *line, uint8_t name[TKW_NAME_LENGTH])
{
    size_t count = 0;
    if (*line->at++ != '"')
        return complain_of_line(line->path, line->number, "should begin with a name in double quotes");
    while (line->at < line->end && *line->at != '"') {
        uint8_t byte;
        if (!take_byte(line, &byte))
            return complain_of_line(line->path, line->number, "in a name, a backslash begins one of \\\", \\\\ and \\xHH");
        if (count < TKW_NAME_LENGTH)
            name[count] = byte;
        count++;
    }
    if (line->at == line->end)
        return complain_of_line(line->path, line->number, "the quote behind the name is missing");
    line->at++;
    return count == TKW_NAME_LENGTH
        || complain_of_line(line->path, line->number, "the name has %zu byte%s and should have %d (fill up a shorter one with blanks)",
                            count, count == 1 ? "" : "s", TKW_NAME_LENGTH);
}

/* Takes the address behind a name. False after a complaint. */
static bool take_address(struct line *line, uint32_t *address)
{
    const char *behind_name = line->at;
    skip_blanks(line);
    if (is_over(line))
        return complain_of_line(line->path, line->number, "the address behind the name is missing");
    if (line->at == behind_name)
        return complain_of_line(line->path, line->number, "a blank should stand between the name and its address");
    const char *digits = line->at;
    while (!is_over(line) && !is_blank(*line->at))
        line->at++;
    if (!parse_number(digits, (size_t)(line->at - digits), address))
        return complain_of_line(line->path, line->number, "the address is no number of at most 32 bits: decimal, 0x hex or $ hex");
    if (*address > ADDRESS_MOST)
        return complain_of_line(line->path, line->number, "the address is %u; 0 to %d", *address, ADDRESS_MOST);
    skip_blanks(line);
    return is_over(line) || complain_of_line(line->path, line->number, "behind the address only a comment may stand, which begins with #");
}

/* The last line so far that has the name, or 0. */
static size_t line_of(const struct names *names, const uint8_t name[TKW_NAME_LENGTH])
{
    for (size_t i = names->lent; i > 0; i--)
        if (memcmp(names->names + (i - 1) * TKW_NAME_LENGTH, name, TKW_NAME_LENGTH) == 0)
            return names->lines[i - 1];
    return 0;
}

/* Takes a line with a name and its address into the list. False after a complaint. */
static bool take_line(struct line *line, struct names *names)
{
    uint8_t name[TKW_NAME_LENGTH];
    uint32_t address;
    if (!take_name(line, name) || !take_address(line, &address))
        return false;
    size_t before = line_of(names, name);
    if (before > 0)
        warn(line->path, line->number, "this name stands in line %zu too; the address here holds", before);
    names->listed++;
    if (names->lent < NAMES_MOST) {
        names->lines[names->lent] = line->number;
        memcpy(names->names + names->lent * TKW_NAME_LENGTH, name, TKW_NAME_LENGTH);
        names->addresses[names->lent * 2] = (uint8_t)(address & 0xFF);
        names->addresses[names->lent * 2 + 1] = (uint8_t)(address >> 8);
        names->lent++;
    }
    return true;
}

static bool take_text(const char *path, const char *text, size_t length, struct names *names)
{
    const char *const end = text + length;
    if (length >= sizeof BYTE_ORDER_MARK - 1 && memcmp(text, BYTE_ORDER_MARK, sizeof BYTE_ORDER_MARK - 1) == 0)
        text += sizeof BYTE_ORDER_MARK - 1;
    for (size_t number = 1; text < end; number++) {
        const char *newline = memchr(text, '\n', (size_t)(end - text));
        struct line line = {path, number, text, newline == NULL ? end : newline};
        text = newline == NULL ? end : newline + 1;
        skip_blanks(&line);
        if (!is_over(&line) && !take_line(&line, names))
            return false;
    }
    return true;
}

bool read_names(const char *path, struct names *names)
{
    uint8_t *text = malloc(TEXT_MOST + 1);
    size_t length = 0;
    bool good = false;
    if (text == NULL)
        return complain(shown_name(path), "there is not enough memory to read it");
    *names = (struct names){0};
    if (read_file(path, text, TEXT_MOST + 1, &length)) {
        if (length > TEXT_MOST)
            complain(shown_name(path), "is longer than %d bytes", TEXT_MOST);
        else
            good = take_text(shown_name(path), (const char *)text, length, names);
    }
    free(text);
    return good;
}
