/* A request: one call with its settings and with the contents of every buffer before it, to be made of both implementations alike. */
#ifndef REQUEST_H
#define REQUEST_H

#include "lend.h"

#include <stdbool.h>
#include <stddef.h>
#include <stdint.h>
#include <stdio.h>

enum call { SDX_LOAD, SDX_LOAD_DEFAULT, ACX_LOAD, ACX_LOAD_DEFAULT, ACX_MOVE, INDEX_BUILD, INDEX_MOVE, CALLS };

/* The two implementations. */
enum maker { PRODUCT, SECOND, MAKERS };

/* The buffers that a call may take; the first three are only read. FILE_BYTES is the file, or the index that a move goes by; INDEX is the
 * room in which one is built. */
enum buffer { FILE_BYTES, KNOWN_NAMES, KNOWN_ADDRESSES, MEMORY, MAP, NEW_NAMES, NEW_ADDRESSES, SCRATCH, INDEX, ANSWER, BUFFERS };

/* The settings; a move takes MAIN and ZERO as the old bases. */
enum setting { FORM, LOW, HIGH, MAIN, ZERO, NEW_MAIN, NEW_ZERO, SETTINGS };

/* Room for every length that is tried, wrong ones included. */
enum { CAPACITY = 18 * 4096 };

struct contents {
    size_t length;
    uint8_t bytes[CAPACITY];
};

struct request {
    enum call call;
    uint32_t settings[SETTINGS];
    enum placement placement; /* of the buffers */
    bool null_if_empty;       /* an empty buffer is NULL */
    struct contents buffers[BUFFERS];
};

const char *call_name(enum call call);
const char *buffer_name(enum buffer buffer);
bool call_is_move(enum call call);
bool call_takes_buffer(enum call call, enum buffer buffer);
bool call_takes_setting(enum call call, enum setting setting);
bool buffer_is_input(enum buffer buffer);

/* The length that a buffer for output must have. */
size_t room_length(enum buffer buffer);

/* Makes the call with these buffers, whose lengths the request has. */
uint32_t perform(const struct request *request, enum maker maker, uint8_t *const lent[BUFFERS]);

/* The call with its settings and lengths, and the file or the index if it is short. */
void describe(FILE *out, const struct request *request);

#endif
