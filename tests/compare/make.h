/* Random files and indexes, with settings that suit them. One is sound unless slips are asked for; then each choice goes wrong once in a while. */
#ifndef MAKE_H
#define MAKE_H

#include "driver.h"
#include "formulas.h"

/* Slips come once in so many choices; 0 for none. */
struct making {
    struct rng *rng;
    struct request *request;
    uint32_t slips_once_in;
    struct made *made; /* where make_acx takes down what it makes, right where there are no slips; NULL if that is not wanted */
};

bool slip(const struct making *making);

/* Write at the end of the request's file; what is past its room is left out. */
void put_byte(const struct making *making, uint32_t byte);
void put_word(const struct making *making, uint32_t word);
void put_random(const struct making *making, uint32_t length);

/* An SDX file with known names, low and high. */
void make_sdx(const struct making *making);

/* How far an ACX handler reaches from its bases. */
struct reach {
    uint32_t main, zero;
};

/* An ACX file with its form; then bases for it, most of which it fits at. */
struct reach make_acx(const struct making *making);
void choose_bases(const struct making *making, struct reach reach, uint32_t *main, uint32_t *zero);
void choose_new_bases(const struct making *making, struct reach reach);

/* An index in the place of the file, of a handler that is taken down; one that a builder could have made, or another. */
struct reach make_index(const struct making *making);

/* An ACX file whose index is about 65,536 bytes long. */
struct reach make_long(const struct making *making);

/* Spoils the file or the index in one way: a cut, a flip, an insertion, a deletion, too much of it. It may stay sound. */
void damage(const struct making *making);

/* Spoils the request in one way or a few: so, or with settings at bounds, wrong lengths. */
void mutate(const struct making *making);

/* Gives one buffer of the call another length. */
void mutate_length(const struct making *making);

#endif
