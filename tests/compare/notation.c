#include "notation.h"

#include <ctype.h>
#include <stdio.h>
#include <stdlib.h>
#include <string.h>

struct reader {
    const char *text, *next;
    uint8_t *bytes;
    size_t length, capacity;
};

static void mistake(const struct reader *reader)
{
    fprintf(stderr, "compare: no notation at \"%s\" in \"%s\"\n", reader->next, reader->text);
    abort();
}

static void put(struct reader *reader, uint8_t byte)
{
    if (reader->length == reader->capacity)
        mistake(reader);
    reader->bytes[reader->length++] = byte;
}

static void skip_spaces(struct reader *reader)
{
    while (*reader->next == ' ' || *reader->next == '\n')
        reader->next++;
}

static void hex_pair(struct reader *reader)
{
    if (!isxdigit((unsigned char)reader->next[0]) || !isxdigit((unsigned char)reader->next[1]))
        mistake(reader);
    char pair[3] = {reader->next[0], reader->next[1], '\0'};
    put(reader, (uint8_t)strtoul(pair, NULL, 16));
    reader->next += 2;
}

static void quoted(struct reader *reader)
{
    for (reader->next++; *reader->next != '\''; reader->next++) {
        if (*reader->next == '\0')
            mistake(reader);
        put(reader, (uint8_t)*reader->next);
    }
    reader->next++;
}

/* "*N" after an item: what stands from `first` on, N times. */
static void repeat(struct reader *reader, size_t first)
{
    if (*reader->next != '*')
        return;
    char *end;
    unsigned long times = strtoul(reader->next + 1, &end, 10);
    if (end == reader->next + 1)
        mistake(reader);
    reader->next = end;
    size_t once = reader->length - first;
    for (unsigned long i = 1; i < times; i++)
        for (size_t j = 0; j < once; j++)
            put(reader, reader->bytes[first + j]);
}

/* Items up to the end of the text, a ")" or a ";". */
static void items(struct reader *reader)
{
    for (skip_spaces(reader); *reader->next != '\0' && *reader->next != ')' && *reader->next != ';'; skip_spaces(reader)) {
        size_t first = reader->length;
        if (*reader->next == '(') {
            reader->next++;
            items(reader);
            if (*reader->next != ')')
                mistake(reader);
            reader->next++;
        } else if (*reader->next == '\'') {
            quoted(reader);
        } else {
            hex_pair(reader);
        }
        repeat(reader, first);
    }
}

size_t notation_bytes(const char *text, uint8_t *bytes, size_t capacity)
{
    struct reader reader = {.text = text, .next = text, .bytes = bytes, .capacity = capacity};
    items(&reader);
    if (*reader.next != '\0')
        mistake(&reader);
    return reader.length;
}

enum { RUN_MOST = 65536 };

/* The run at *runs, which is moved behind it: its address, and the bytes with their count. */
static uint32_t take_run(const char **runs, uint8_t bytes[RUN_MOST], size_t *length)
{
    char *end;
    uint32_t address = (uint32_t)strtoul(*runs, &end, 16);
    struct reader reader = {.text = *runs, .next = end, .bytes = bytes, .capacity = RUN_MOST};
    if (*end != ':' || address > 65535)
        mistake(&reader);
    reader.next++;
    items(&reader);
    if (*reader.next == ';')
        reader.next++;
    if (address + reader.length > 65536)
        mistake(&reader);
    *runs = reader.next;
    *length = reader.length;
    return address;
}

void notation_write(const char *runs, uint8_t *memory)
{
    uint8_t bytes[RUN_MOST];
    size_t length;
    while (*runs != '\0') {
        uint32_t address = take_run(&runs, bytes, &length);
        memcpy(memory + address, bytes, length);
    }
}

bool notation_holds(const char *runs, const uint8_t *memory)
{
    uint8_t bytes[RUN_MOST];
    size_t length;
    while (*runs != '\0') {
        uint32_t address = take_run(&runs, bytes, &length);
        if (memcmp(memory + address, bytes, length) != 0)
            return false;
    }
    return true;
}
