/* Directed cases for the builder of document 02's wish 5. That it has "its load's map, answer and refusals" is seen with every file of the
 * loader's cases (directed.h); here is what it writes, and where that wouldn't fit. */
#include "directed.h"

#include <stdio.h>

#define CODE_3 "00 05 00 00 4C 03 00 "
#define P1 CODE_3 "06 01 01 0B 02 00 00"
#define P3 "00 04 00 00 A2 00 08 02 01 F0 0B 00 00 00"
#define END "0B 00 00 00"
#define EMPTY "00 02 00 00 "
/* The index of P1, byte for byte; and the entries of the records above. */
#define P1_INDEX "01 00 07 00 00 00 03 06 01 00 00 04 0B 02 00 00"
#define ENTRY_3 "00 04 00 00 00 03 "
#define END_ENTRY "00 04 0B 00 00 00"
#define EMPTY_ENTRY "00 04 00 00 00 00 "

static const struct directed cases[] = {
    {"P1's index", BUILD(1, 8192, 128), P1, BUILT_STARTED(8192, 3, 1, 16), .map = "0000: 00*8192 01 03 03 00*57341", .index = P1_INDEX},
    {"P1's index, disk form", BUILD(0, 8192, 128), "F0 FF " P1, BUILT_STARTED(8192, 3, 1, 16), .index = P1_INDEX},
    {"P1's index, from other bases", BUILD(1, 12416, 3), P1, BUILT_STARTED(12416, 3, 1, 16), .map = "307F: 00 01 03 03 00", .index = P1_INDEX},
    {"P1's index, from the highest base", BUILD(1, 65533, 255), P1, BUILT_STARTED(65533, 3, 1, 16), .map = "FFFC: 00 01 03 03", .index = P1_INDEX},
    {"P3's index", BUILD(1, 8192, 128), P3, BUILT(2, 1, 16), .index = "01 00 07 00 00 00 02 08 01 F0 " END_ENTRY},
    {"only an end record", BUILD(1, 8192, 128), END, BUILT(0, 0, 7), .map = "0000: 00*65536", .index = "01 " END_ENTRY},

    /* "relative or absolute address (two bytes, big-endian), code length (a byte)" */
    {"an address in main code", BUILD(1, 8192, 128), "00 03 34 12 77 " END, BUILT(1, 0, 13), .map = "3234: 01", .index = "01 00 04 00 12 34 01 " END_ENTRY},
    {"an absolute address", BUILD(1, 8192, 128), "01 03 34 12 77 " END, BUILT(1, 0, 13), .map = "1234: 01", .index = "01 00 04 01 12 34 01 " END_ENTRY},
    {"an address in zero page", BUILD(1, 8192, 128), "0A 03 34 00 77 " END, BUILT(1, 0, 13), .map = "00B4: 01", .index = "01 00 04 0A 00 34 01 " END_ENTRY},
    {"a record without code", BUILD(1, 8192, 128), EMPTY END, BUILT(0, 0, 13), .index = "01 " EMPTY_ENTRY END_ENTRY},
    {"records without code between others", BUILD(1, 8192, 128), EMPTY CODE_3 "0A 02 05 00 01 02 06 00 08 00 " END, BUILT(3, 0, 31), .index = "01 " EMPTY_ENTRY ENTRY_3 "00 04 0A 00 05 00 00 04 01 00 06 00 " END_ENTRY},
    {"a record of 253 bytes", BUILD(1, 8192, 128), "00 FF 00 00 33*253 " END, BUILT(253, 0, 13), .index = "01 00 04 00 00 00 FD " END_ENTRY},

    /* "in file order" */
    {"pieces in another order than their places", BUILD(1, 8192, 128), "00 04 02 00 03 04 00 04 00 00 01 02 " END, BUILT(4, 0, 19), .index = "01 00 04 00 00 02 02 00 04 00 00 00 02 " END_ENTRY},
    {"fixups in another order than their kinds and places", BUILD(1, 8192, 128), "00 08 00 00 01 02 03 04 05 06 06 01 04 02 02 03 00 08 02 02 80 04 01 01 " END, BUILT(6, 5, 28), .index = "01 00 13 00 00 00 06 06 04 00 02 03 00 02 00 00 08 02 80 04 01 00 " END_ENTRY},
    {"two lists of one kind", BUILD(1, 8192, 128), CODE_3 "02 01 02 02 01 00 " END, BUILT(3, 2, 19), .index = "01 00 0A 00 00 00 03 02 02 00 02 00 00 " END_ENTRY},
    {"fixups with the code before them", BUILD(1, 8192, 128), CODE_3 "02 01 01 00 04 03 00 77 78 04 01 01 " END, BUILT(5, 2, 25), .index = "01 00 07 00 00 00 03 02 01 00 00 07 00 00 03 02 04 01 00 " END_ENTRY},
    {"high bytes with their LSBs", BUILD(1, 8192, 128), "00 04 00 00 A2 00 08 04 01 F0 00 0F " END, BUILT(2, 2, 19), .index = "01 00 0A 00 00 00 02 08 01 F0 08 00 0F " END_ENTRY},
    {"a list of 08 without items", BUILD(1, 8192, 128), CODE_3 "08 00 06 01 01 08 00 " END, BUILT(3, 1, 16), .index = "01 00 07 00 00 00 03 06 01 00 " END_ENTRY},
    {"nothing but a list of 09 without items", BUILD(1, 8192, 128), "0A 03 00 00 77 09 00 " END, BUILT(1, 0, 13), .index = "01 00 04 0A 00 00 01 " END_ENTRY},
    {"the fixups of zero page", BUILD(1, 0x1234, 0x40), "0A 07 02 00 01 02 03 04 05 03 01 00 05 01 01 07 01 02 09 02 04 CC " END, BUILT(5, 4, 25), .map = "0041: 00 03*5 00", .index = "01 00 10 0A 00 02 05 03 00 00 05 01 00 07 02 00 09 04 CC " END_ENTRY},
    {"the fixups of absolute code", BUILD(1, 0x1234, 0x40), "01 07 02 02 01 02 03 04 05 02 01 00 04 01 01 06 01 02 08 02 04 CC " END, BUILT(5, 4, 25), .map = "0201: 00 03*5 00", .index = "01 00 10 01 02 02 05 02 00 00 04 01 00 06 02 00 08 04 CC " END_ENTRY},

    /* "type, flag, big-endian address"; "an absent number is zero wherever it is reported or written" */
    {"no start, whatever its address", BUILD(1, 8192, 128), CODE_3 "0B 00 34 12", BUILT(3, 0, 13), .index = "01 " ENTRY_3 END_ENTRY},
    {"no start, too high for one", BUILD(1, 8192, 128), CODE_3 "0B 00 FF FF", BUILT(3, 0, 13), .index = "01 " ENTRY_3 END_ENTRY},
    {"an absolute start", BUILD(1, 8192, 128), CODE_3 "0B 01 34 12", BUILT_STARTED(0x1234, 3, 0, 13), .index = "01 " ENTRY_3 "00 04 0B 01 12 34"},
    {"a relative start", BUILD(1, 8192, 128), CODE_3 "0B 02 34 12", BUILT_STARTED(0x3234, 3, 0, 13), .index = "01 " ENTRY_3 "00 04 0B 02 12 34"},
    {"start 0", BUILD(1, 8192, 128), CODE_3 "0B 01 00 00", BUILT_STARTED(0, 3, 0, 13), .index = "01 " ENTRY_3 "00 04 0B 01 00 00"},
};

/* "in building, after the load's refusals, 25 at offset 0 where the index wouldn't fit". A record without code takes four bytes of the file and
 * six of the index, so a file of 43,688 bytes has 10,922 too many. */
#define LONG "(" EMPTY ")*10922 "

static const struct directed limits[] = {
    {"an index of 65,533 bytes", BUILD(1, 8192, 128), "(" EMPTY ")*10921 " END, BUILT(0, 0, 65533), .index = "01 (" EMPTY_ENTRY ")*10921 " END_ENTRY},
    {"an index of 65,536 bytes", BUILD(1, 8192, 128), "(" EMPTY ")*10920 00 03 00 00 77 02 01 00 " END, BUILT(1, 1, 65536), .map = "1FFF: 00 03 00", .index = "01 (" EMPTY_ENTRY ")*10920 00 07 00 00 00 01 02 00 00 " END_ENTRY},
    {"an index of 65,536 bytes, disk form", BUILD(0, 8192, 128), "F0 FF (" EMPTY ")*10920 00 03 00 00 77 02 01 00 0B 02 00 00", BUILT_STARTED(8192, 1, 1, 65536), .index = "01 (" EMPTY_ENTRY ")*10920 00 07 00 00 00 01 02 00 00 00 04 0B 02 00 00"},
    {"an index of 65,539 bytes", BUILD(1, 8192, 128), LONG END, REFUSED(25, 0), .map = "0000: 00*65536"},
    {"an index of 65,539 bytes, disk form", BUILD(0, 8192, 128), "F0 FF " LONG END, REFUSED(25, 0)},
    {"an index of 65,539 bytes by a fixup", BUILD(1, 8192, 128), "(" EMPTY ")*10920 00 04 00 00 77 78 02 02 00 01 " END, REFUSED(25, 0), .map = "0000: 00*65536"},
    {"an index of 65,539 bytes by a list of 08", BUILD(1, 8192, 128), "(" EMPTY ")*10920 00 04 00 00 77 78 08 04 00 01 01 02 " END, REFUSED(25, 0)},
    {"lists of 08 without items take no room", BUILD(1, 8192, 128), "(" EMPTY "08 00 )*10000 " END, BUILT(0, 0, 60007)},
    {"the longest index of all", BUILD(1, 8192, 128), "(" EMPTY ")*16383 " END, REFUSED(25, 0)},

    {"2 before 25: form", BUILD(2, 8192, 128), LONG END, REFUSED(2, 0)},
    {"2 before 25: main base", BUILD(1, 65536, 128), LONG END, REFUSED(2, 0)},
    {"2 before 25: zero-page base", BUILD(1, 8192, 256), LONG END, REFUSED(2, 0)},
    {"3 before 25", BUILD(1, 8192, 128), "(" EMPTY ")*16384 " END, REFUSED(3, 0)},
    {"4 before 25", BUILD(0, 8192, 128), LONG END, REFUSED(4, 0)},
    {"5 before 25: no end record", BUILD(1, 8192, 128), LONG, REFUSED(5, 43688)},
    {"5 before 25: the end record cut", BUILD(1, 8192, 128), LONG "0B 00 00", REFUSED(5, 43691)},
    {"6 before 25: the type", BUILD(1, 8192, 128), LONG "0C", REFUSED(6, 43688)},
    {"6 before 25: the flag", BUILD(1, 8192, 128), LONG "0B 03 00 00", REFUSED(6, 43689)},
    {"9 before 25: code", BUILD(1, 8192, 128), LONG "00 01 00 " END, REFUSED(9, 43689)},
    {"9 before 25: fixups", BUILD(1, 8192, 128), LONG "02 00 " END, REFUSED(9, 43689)},
    {"10 before 25", BUILD(1, 8192, 128), LONG "00 03 00 E0 77 " END, REFUSED(10, 43690)},
    {"12 before 25", BUILD(1, 8192, 128), LONG "02 01 00 " END, REFUSED(12, 43690)},
    {"13 before 25", BUILD(1, 8192, 128), LONG CODE_3 "02 02 01 01 " END, REFUSED(13, 43698)},
    {"17 before 25", BUILD(1, 8192, 128), LONG CODE_3 "00 03 02 00 77 " END, REFUSED(17, 43697)},
    {"18 before 25", BUILD(1, 8192, 128), LONG "03 01 00 " END, REFUSED(18, 43688)},
    {"19 before 25", BUILD(1, 8192, 128), LONG END " 00", REFUSED(19, 43692)},
    {"20 before 25", BUILD(1, 8192, 128), LONG "0B 02 00 E0", REFUSED(20, 43690)},
};

/* An entry with so many fixups, whose length takes both its bytes from 84 on. */
static void many_fixups(struct driver *driver, uint32_t count)
{
    char name[64], file[1024], index[3072];
    snprintf(name, sizeof name, "an entry with %u fixups", count);
    int at = snprintf(file, sizeof file, "00 FF 00 00 5A*253 04 %02X ", count);
    uint32_t length = 4 + 3 * count;
    int index_at = snprintf(index, sizeof index, "01 %02X %02X 00 00 00 FD ", length / 256, length % 256);
    for (uint32_t i = 0; i < count; i++) {
        at += snprintf(file + at, sizeof file - (size_t)at, "%02X ", 252 - i);
        index_at += snprintf(index + index_at, sizeof index - (size_t)index_at, "04 %02X 00 ", 252 - i);
    }
    snprintf(file + at, sizeof file - (size_t)at, END);
    snprintf(index + index_at, sizeof index - (size_t)index_at, END_ENTRY);
    struct directed many = {name, BUILD(1, 8192, 128), file, BUILT(253, count, 9 + length), .index = index};
    run_directed(driver, &many);
}

void cases_build(struct driver *driver)
{
    static const uint32_t counts[] = {83, 84, 85, 169, 170, 252, 253};
    for (size_t i = 0; i < sizeof cases / sizeof cases[0]; i++)
        run_directed(driver, &cases[i]);
    for (size_t i = 0; i < sizeof limits / sizeof limits[0]; i++)
        run_directed(driver, &limits[i]);
    for (size_t i = 0; i < sizeof counts / sizeof counts[0]; i++)
        many_fixups(driver, counts[i]);
}
