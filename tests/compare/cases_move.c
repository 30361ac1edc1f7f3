/* Directed cases for the mover: P2 and P5 of document 01's table, both sides of a refusal, overlapping places, live data, vectors, and the
 * places that document 02's wish 6 gives to refusals. */
#include "directed.h"

#define P1 "00 05 00 00 4C 03 00 06 01 01 0B 02 00 00"
#define P3 "00 04 00 00 A2 00 08 02 01 F0 0B 00 00 00"
#define END "0B 00 00 00"
/* Four bytes, none of them a field. */
#define PLAIN_4 "00 06 00 00 01 02 03 04 " END
/* A main piece, an absolute one and one in zero page, each with fields. */
#define MIXED "00 06 00 00 01 02 03 04 02 01 00 04 01 01 08 02 02 80 01 04 00 30 05 06 06 01 00 0A 04 10 00 07 08 07 01 00 " END

/* A jump vector in page 2; and two bytes more about it. */
#define VECTOR "01 04 00 02 00 00 06 01 00 "
#define WIDE_VECTOR "01 06 FF 01 4C 00 00 77 06 01 01 " END

static const struct directed cases[] = {
    {"P2", MOVE(1, 8192, 128, 12416, 128), P1, STARTED(12416, 3, 1), "3080: 4C 83 30; 2000: 4C 03 20", "307F: 00 01 03 03 00; 2000: 00*3", .before = "2000: 4C 03 20"},
    {"P5", MOVE(1, 8208, 128, 8192, 128), P3, LOADED(2, 1), "2000: A2 20", "1FFF: 00 01 03 00", .before = "2010: A2 21"},
    {"disk form", MOVE(0, 8192, 128, 12416, 128), "F0 FF " P1, STARTED(12416, 3, 1), "3080: 4C 83 30", .before = "2000: 4C 03 20"},

    {"up over itself", MOVE(1, 8192, 128, 8193, 128), PLAIN_4, LOADED(4, 0), "2000: 11 11 22 33 44 99", .before = "2000: 11 22 33 44 88 99"},
    {"down over itself", MOVE(1, 8193, 128, 8192, 128), PLAIN_4, LOADED(4, 0), "2000: 22 33 44 88 88 99", .before = "2000: 11 22 33 44 88 99"},
    {"nowhere", MOVE(1, 8192, 128, 8192, 128), P1, STARTED(8192, 3, 1), "2000: 77 88 99", .before = "2000: 77 88 99"},
    {"a live word", MOVE(1, 8192, 128, 12416, 128), P1, STARTED(12416, 3, 1), "3080: EA 81 46", .before = "2000: EA 01 36"},
    {"a word below its base", MOVE(1, 8192, 128, 0, 128), P1, STARTED(0, 3, 1), "0000: 4C 00 F0", .before = "2000: 4C 00 10"},
    {"pieces in another order than their places", MOVE(1, 8192, 128, 8194, 128), "00 04 02 00 03 04 00 04 00 00 01 02 " END, LOADED(4, 0), "2002: 11 22 33 44", .before = "2000: 11 22 33 44"},
    {"pieces of each kind", MOVE(1, 0x20F0, 0x40, 0x4180, 0x44), MIXED, LOADED(8, 5), "4180: 91 24 54 44; 3000: E5 86; 0054: 07 29; 20F0: 01 20 33 44; 0050: 77 08", "3000: 03 03 00; 0050: 00*4 03 03 00", .before = "20F0: 01 20 33 44; 3000: 55 66; 0050: 77 08"},
    {"zero page alone moves", MOVE(1, 8192, 0, 8192, 255), "0A 03 00 00 77 05 01 00 " END, LOADED(1, 1), "00FF: 0F", .before = "0000: 10"},
    {"high byte up to the next page", MOVE(1, 0x2000, 0, 0x2001, 0), "00 03 00 00 77 08 02 00 FF " END, LOADED(1, 1), "2001: 21", .before = "2000: 20"},
    {"high byte within its page", MOVE(1, 0x2001, 0, 0x20FF, 0), "00 03 00 00 77 08 02 00 FF " END, LOADED(1, 1), "20FF: 21", .before = "2001: 21"},
    {"word in zero page, from main base 65,535", MOVE(1, 65535, 0, 0, 0), "0A 04 00 00 77 78 07 01 00 " END, LOADED(2, 1), "0000: 02 34", .before = "0000: 01 34"},
    {"no piece at all", MOVE(1, 0, 0, 65535, 255), END, LOADED(0, 0), NULL, "0000: 00*65536"},

    {"a live vector", MOVE(1, 8192, 128, 8448, 128), VECTOR END, LOADED(2, 1), "01FF: 11 00 22 33", "01FF: 00 03 03 00", .before = "01FF: 11 00 21 33"},
    {"a vector moved on", MOVE(1, 8448, 128, 12416, 128), VECTOR END, LOADED(2, 1), "0200: 80 31", .before = "0200: 00 22"},
    {"a vector moved back", MOVE(1, 8448, 128, 8192, 128), VECTOR END, LOADED(2, 1), "0200: 00 21", .before = "0200: 00 22"},
    {"a vector below its base", MOVE(1, 8192, 128, 0, 128), VECTOR END, LOADED(2, 1), "0200: 00 F0", .before = "0200: 00 10"},
    {"a vector while zero page alone moves", MOVE(1, 8192, 0, 8192, 255), VECTOR END, LOADED(2, 1), "0200: 34 12", .before = "0200: 34 12"},
    {"the bytes beside a vector", MOVE(1, 8192, 128, 12416, 128), WIDE_VECTOR, LOADED(4, 1), "01FF: EA B4 22 99", "01FE: 00 01 03 03 01 00", .before = "01FF: EA 34 12 99"},
    {"the fixups of absolute code", MOVE(1, 0x20F0, 0x40, 0x4180, 0x44), "01 07 00 30 01 02 03 04 05 02 01 00 04 01 01 06 01 02 08 02 04 80 " END, LOADED(5, 4), "3000: 91 24 C3 64 76", .before = "3000: 01 20 33 44 55"},
    {"a vector at 65,534", MOVE(1, 8192, 128, 8448, 128), "01 04 FE FF 00 00 06 01 00 " END, LOADED(2, 1), "FFFE: 00 22", .before = "FFFE: 00 21"},
    {"a vector and the code that it points to", MOVE(1, 8192, 128, 8193, 128), VECTOR PLAIN_4, LOADED(6, 1), "0200: 03 20; 2000: 11 11 22 33 44 99", .before = "0200: 02 20; 2000: 11 22 33 44 88 99"},
    {"a vector listed by 07", MOVE(1, 8192, 128, 8448, 128), "01 04 00 02 00 00 07 01 00 " END, REFUSED(18, 6), "0200: 00 21", .before = "0200: 00 21"},

    {"form 2", MOVE(2, 8192, 128, 8192, 128), P1, REFUSED(2, 0)},
    {"old main base 65,536", MOVE(1, 65536, 128, 8192, 128), P1, REFUSED(2, 0)},
    {"old zero-page base 256", MOVE(1, 8192, 256, 8192, 128), P1, REFUSED(2, 0)},
    {"new main base 65,536", MOVE(1, 8192, 128, 65536, 128), P1, REFUSED_AT_NEW(2, 0)},
    {"new zero-page base 256", MOVE(1, 8192, 128, 8192, 256), P1, REFUSED_AT_NEW(2, 0)},
    {"both bases out of range", MOVE(1, 65536, 128, 65536, 128), P1, REFUSED(2, 0)},
    {"a faulty file before a new base out of range", MOVE(1, 8192, 128, 65536, 128), "0C", REFUSED(6, 0)},
    {"a file too long before a new base out of range", MOVE(1, 8192, 128, 65536, 128), "00*65537", REFUSED(3, 0)},
    {"fits at neither", MOVE(1, 65534, 128, 65535, 128), P1, REFUSED(10, 2)},
    {"fits at the old only", MOVE(1, 8192, 128, 65534, 128), P1, REFUSED_AT_NEW(10, 2)},
    {"fits at the new only", MOVE(1, 65534, 128, 8192, 128), P1, REFUSED(10, 2)},
    {"fits at both ends of memory", MOVE(1, 0, 128, 65533, 128), P1, STARTED(65533, 3, 1), "FFFD: 4C 00 00", .before = "0000: 4C 03 00"},
    {"zero page fits at the old only", MOVE(1, 8192, 254, 8192, 255), "0A 04 00 00 77 78 " END, REFUSED_AT_NEW(10, 2)},
    {"onto an absolute piece", MOVE(1, 8192, 128, 0x3000, 128), "01 03 01 30 77 " PLAIN_4, REFUSED_AT_NEW(17, 7)},
    {"off an absolute piece", MOVE(1, 0x3000, 128, 8192, 128), "01 03 01 30 77 " PLAIN_4, REFUSED(17, 7)},
    {"onto a vector", MOVE(1, 8192, 128, 0x01FD, 128), VECTOR PLAIN_4, REFUSED_AT_NEW(17, 11), "0200: 00 21", .before = "0200: 00 21"},
    {"up to a vector", MOVE(1, 8192, 128, 0x01FC, 128), VECTOR PLAIN_4, LOADED(6, 1), "01FC: 11 22 33 44 FC 02", .before = "0200: 00 21; 2000: 11 22 33 44"},
    {"onto zero page", MOVE(1, 8192, 128, 125, 128), "0A 03 00 00 77 " PLAIN_4, REFUSED_AT_NEW(17, 7)},
    {"up to zero page", MOVE(1, 8192, 128, 124, 128), "0A 03 00 00 77 " PLAIN_4, LOADED(5, 0)},
    {"start too high at the new", MOVE(1, 8192, 128, 8193, 128), "00 02 00 00 0B 02 FF DF", REFUSED_AT_NEW(20, 6)},
    {"start too high at the old", MOVE(1, 8193, 128, 8192, 128), "00 02 00 00 0B 02 FF DF", REFUSED(20, 6)},

    /* Document 02, wish 6: "A refusal's offset should be that of the first byte of the field or item at fault, in both loaders, HEX and moves
     * by file". Whatever is no matter of bases is seen at the old ones; of the rest each stands behind other records, at either side. */
    {"at the opening: its first byte", MOVE(0, 8192, 128, 8448, 128), "F1 FF " P1, REFUSED(4, 0)},
    {"at the opening: its second byte", MOVE(0, 8192, 128, 8448, 128), "F0 FE " P1, REFUSED(4, 0)},
    {"at the file's length: half an opening", MOVE(0, 8192, 128, 8448, 128), "F0", REFUSED(5, 1)},
    {"at the address: main fits at the old only", MOVE(1, 8192, 128, 65533, 128), "0A 03 00 00 77 " PLAIN_4, REFUSED_AT_NEW(10, 7)},
    {"at the address: main fits at the new only", MOVE(1, 65533, 128, 8192, 128), "0A 03 00 00 77 " PLAIN_4, REFUSED(10, 7)},
    {"at the address: main fits at the old only, disk form", MOVE(0, 8192, 128, 65533, 128), "F0 FF 0A 03 00 00 77 " PLAIN_4, REFUSED_AT_NEW(10, 9)},
    {"at the address: zero page fits at the old only", MOVE(1, 8192, 254, 8448, 255), VECTOR "0A 04 00 00 77 78 " END, REFUSED_AT_NEW(10, 11)},
    {"at the address: zero page fits at the new only", MOVE(1, 8192, 255, 8448, 254), VECTOR "0A 04 00 00 77 78 " END, REFUSED(10, 11)},
    {"at the item: of the old bases, before what is at the new", MOVE(1, 8192, 128, 0x01FD, 128), "01 05 00 02 00 00 00 02 02 02 FF " PLAIN_4, REFUSED(12, 10)},
    {"at the address: shared at the new only, disk form", MOVE(0, 8192, 128, 0x01FD, 128), "F0 FF " VECTOR PLAIN_4, REFUSED_AT_NEW(17, 13)},
    {"at the address: shared at the old only, disk form", MOVE(0, 0x01FD, 128, 8192, 128), "F0 FF " VECTOR PLAIN_4, REFUSED(17, 13)},
    {"at the start: too high at the new, after fixups", MOVE(1, 8192, 128, 8193, 128), VECTOR "0B 02 FF DF", REFUSED_AT_NEW(20, 11)},
    {"at the start: too high at the old, after fixups", MOVE(1, 8193, 128, 8192, 128), VECTOR "0B 02 FF DF", REFUSED(20, 11)},
    {"at the start: too high at the new, disk form", MOVE(0, 8192, 128, 8193, 128), "F0 FF " VECTOR "0B 02 FF DF", REFUSED_AT_NEW(20, 13)},
};

void cases_move(struct driver *driver)
{
    for (size_t i = 0; i < sizeof cases / sizeof cases[0]; i++)
        run_directed(driver, &cases[i]);
}
