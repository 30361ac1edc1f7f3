/* A file's bytes while they are made. */
#ifndef BYTES_H
#define BYTES_H

#include <stdbool.h>
#include <stddef.h>
#include <stdint.h>

/* Begins as all zeros. Once memory runs out the bytes are freed and later ones dropped, so that one look at `failed` at the end will do. */
struct bytes {
    uint8_t *start;
    size_t length;
    size_t room;
    bool failed;
};

/* Frees the bytes, and marks that there is no memory for them. */
void fail_bytes(struct bytes *bytes);

void put_bytes(struct bytes *bytes, const void *from, size_t length);
void put_byte(struct bytes *bytes, uint8_t byte);

/* Four bytes, the high one first. */
void put_number(struct bytes *bytes, uint32_t number);

/* The same four bytes in place of those at `at`. */
void replace_number(struct bytes *bytes, size_t at, uint32_t number);

#endif
