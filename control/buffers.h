/* The buffers that a call is lent, and the call. */
#ifndef BUFFERS_H
#define BUFFERS_H

#include "answer.h"
#include "names.h"
#include "options.h"
#include "tekoweapa.h"

#include <stdbool.h>
#include <stddef.h>
#include <stdint.h>

/* Every buffer is a member of its own, so no two overlap: the promises of the loaders rest on that. */
struct buffers {
    size_t file_length;
    uint8_t file[TKW_FILE_MOST + 1]; /* FILE or the index of a move: one more than a call takes, so that the call sees what is too long */
    struct names known;
    uint8_t memory[TKW_MEMORY_LENGTH];
    uint8_t map[TKW_MEMORY_LENGTH];
    uint8_t scratch[TKW_MEMORY_LENGTH];
    uint8_t index[TKW_INDEX_LENGTH]; /* that is built */
    uint8_t new_names[TKW_NEW_NAMES_LENGTH];
    uint8_t new_addresses[TKW_NEW_ADDRESSES_LENGTH];
    uint8_t answer[TKW_ANSWER_LENGTH];
};

/* Reads the files that the options name into buffers of zeros. False after a complaint. */
bool fill_buffers(const struct options *options, struct buffers *buffers);

/* Whether a file is an image of memory, by its length; or a map, which has marks alone. */
bool is_image(const uint8_t *bytes, size_t length);
bool is_map(const uint8_t *bytes, size_t length);

/* Makes the call that the options ask for. */
struct answer call_loader(const struct options *options, struct buffers *buffers);

/* Where an SDX program leaves the address of its initialisation, which nothing here runs. */
enum { INIT_ADDRESS = 0x02E2 };

/* Whether the call has left one: both its bytes are loaded. */
bool has_init(const struct options *options, const struct buffers *buffers);

#endif
