/* Buffers that are lent between guard pages: a read or a write outside ends the process, and is reported by the one that watches it. Where
 * an end of a buffer is not tight at its guard page, the slack bytes there are filled and looked at afterwards. */
#ifndef LEND_H
#define LEND_H

#include <stdbool.h>
#include <stddef.h>
#include <stdint.h>

struct arena {
    uint8_t *base;   /* one guard page, then the pages that can be opened, then another guard page */
    size_t page;     /* the length of a page */
    size_t pages;    /* that can be opened */
    size_t open;     /* that are open, from the first */
    uint8_t *lent;   /* the buffer lent last */
    size_t length;
};

/* Where a buffer lies: beginning tight at the lower guard page, ending tight at the upper one, or at an odd address near the lower one. */
enum placement { TIGHT_BELOW, TIGHT_ABOVE, UNALIGNED, PLACEMENTS };

/* What is lent, and how. */
struct loan {
    const uint8_t *bytes;
    size_t length;
    enum placement placement;
    bool read_only;
};

bool arena_open(struct arena *arena, size_t capacity);
void arena_close(struct arena *arena);

/* A copy of the bytes between guard pages. Ends the process if the pages cannot be had. */
uint8_t *arena_lend(struct arena *arena, const struct loan *loan);

/* The slack bytes beside the buffer lent last are as they were filled. */
bool arena_slack_unchanged(const struct arena *arena);

#endif
