/* Directed cases: a request with the result that documents 01 and 02 give it, written out. */
#ifndef DIRECTED_H
#define DIRECTED_H

#include "driver.h"

struct directed {
    const char *name;
    enum call call;
    uint32_t settings[SETTINGS];
    const char *file;   /* in notation; for a move by an index, the index */
    uint32_t answer[ANSWER_NUMBERS];
    const char *memory; /* runs that memory holds after an acceptance */
    const char *map;    /* runs that the map holds then */
    const char *names;  /* the new names then, in notation; the rest of the room is zero */
    const char *addresses;
    const char *known_names, *known_addresses;
    const char *before; /* runs of memory before the call */
    const char *index;  /* the index that is built, in notation; the rest of the room is zero */
};

/* Settings, in the order of the C interface. */
#define SDX_AT(low, high) SDX_LOAD, {[LOW] = (low), [HIGH] = (high)}
#define SDX_DEFAULT SDX_AT(7936, 39936)
#define ACX_AT(form, main, zero) ACX_LOAD, {[FORM] = (form), [MAIN] = (main), [ZERO] = (zero)}
#define DEVICE_DEFAULT ACX_AT(1, 9216, 128)
#define DISK_DEFAULT ACX_AT(0, 9216, 128)
#define MOVE(form, main, zero, new_main, new_zero)                                                                                  \
    ACX_MOVE, {[FORM] = (form), [MAIN] = (main), [ZERO] = (zero), [NEW_MAIN] = (new_main), [NEW_ZERO] = (new_zero)}
#define BUILD(form, main, zero) INDEX_BUILD, {[FORM] = (form), [MAIN] = (main), [ZERO] = (zero)}
#define MOVE_BY_INDEX(main, zero, new_main, new_zero)                                                                               \
    INDEX_MOVE, {[MAIN] = (main), [ZERO] = (zero), [NEW_MAIN] = (new_main), [NEW_ZERO] = (new_zero)}

/* Answers; the fields that follow them in a row may be left out. */
#define REFUSED(number, offset) .answer = {[AT_NUMBER] = (number), [AT_OFFSET] = (offset)}
#define REFUSED_AT_NEW(number, offset) .answer = {[AT_NUMBER] = (number), [AT_OFFSET] = (offset), [AT_SIDE] = 1}
#define LOADED(placed, adjusted) .answer = {[AT_PLACED] = (placed), [AT_ADJUSTED] = (adjusted)}
#define STARTED(start, placed, adjusted)                                                                                            \
    .answer = {[AT_START_PRESENT] = 1, [AT_START] = (start), [AT_PLACED] = (placed), [AT_ADJUSTED] = (adjusted)}
#define SDX_LOADED(placed, adjusted, names, low)                                                                                    \
    .answer = {[AT_PLACED] = (placed), [AT_ADJUSTED] = (adjusted), [AT_NEW_NAMES] = (names), [AT_LOW] = (low)}
#define SDX_STARTED(start, placed, adjusted, names, low)                                                                            \
    .answer = {[AT_START_PRESENT] = 1, [AT_START] = (start), [AT_PLACED] = (placed), [AT_ADJUSTED] = (adjusted),                    \
               [AT_NEW_NAMES] = (names), [AT_LOW] = (low)}
#define BUILT(placed, adjusted, low) .answer = {[AT_PLACED] = (placed), [AT_ADJUSTED] = (adjusted), [AT_LOW] = (low)}
#define BUILT_STARTED(start, placed, adjusted, low)                                                                                 \
    .answer = {[AT_START_PRESENT] = 1, [AT_START] = (start), [AT_PLACED] = (placed), [AT_ADJUSTED] = (adjusted), [AT_LOW] = (low)}

/* Runs one case, at every placement of the buffers, and counts it. A load at the default settings is made by the short call too; an ACX file
 * that is loaded is also given to the builder, with the load's answer and map; and a move by file is held to one by the file's index. */
void run_directed(struct driver *driver, const struct directed *directed);

/* Runs a case with its file, written in hex pairs alone, cut to so many bytes. Document 02, wish 6: "for 5 the file's length". */
void run_cut(struct driver *driver, const struct directed *whole, size_t length);

void cases_sdx(struct driver *driver);
void cases_acx(struct driver *driver);
void cases_move(struct driver *driver);
void cases_build(struct driver *driver);
void cases_index(struct driver *driver);
void cases_lengths(struct driver *driver);
void cases_huge(struct driver *driver);
void cases_search(struct driver *driver);

#endif
