/* Where a handler that is to be moved seems to be. The mover can't tell: it moves whatever stands at the old bases. */
#ifndef PRESENCE_H
#define PRESENCE_H

#include "buffers.h"

/* Code bytes that a load places, and how many of them the image does not have there. Bytes in address fields and zeros are left out: a live
 * handler changes these, and memory that nothing is in has zeros as well. */
struct likeness {
    size_t bytes;
    size_t differing;
};

struct presence {
    struct likeness zero_page; /* of a load at the old bases, in page 0, where the zero-page base decides, */
    struct likeness main;      /* and elsewhere */
    struct likeness at_new;    /* of a load at the new bases, outside of the places of the first */
    /* Address bytes that both loads adjust at one address and leave different, of a vector at a fixed address or where old and new places
     * overlap: how many the image has as the one at the old bases leaves them, and as the one at the new. */
    size_t fields_of_old;
    size_t fields_of_new;
};

/* Compares the image before a move by its file with loads at its old and at its new bases. An index has no code to compare, so of a move by
 * one nothing can be said. False after a complaint. */
bool find_handler(const struct options *options, const struct buffers *buffers, struct presence *presence);

/* Warns where the handler does not seem to be: most of the bytes differ. And where it seems to have been moved before, since a vector at a
 * fixed address would then be adjusted twice: there is a copy at the new bases, and more such address bytes are as there. */
void warn_if_absent(const struct options *options, const struct presence *presence);

/* Whether a copy of the handler seems to have been at the new bases: most of the bytes are there. */
bool has_copy(const struct presence *presence);

#endif
