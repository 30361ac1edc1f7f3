/* Directed cases for moves by an index, document 02's wish 5: what they do, by indexes that a builder could have made and by others; and each
 * refusal with its number and the offset of its entry. */
#include "directed.h"

#include <stdio.h>
#include <string.h>

/* Entries: P1's code with its word, three and four bytes without fixups, a jump vector in page 2, the end. */
#define JUMP "00 07 00 00 00 03 06 01 00 "
#define PLAIN_3 "00 04 00 00 00 03 "
#define PLAIN_4 "00 04 00 00 00 04 "
#define EMPTY "00 04 00 00 00 00 "
#define VECTOR "00 07 01 02 00 02 06 00 00 "
#define END "00 04 0B 00 00 00"
#define P1_INDEX "01 " JUMP "00 04 0B 02 00 00"
#define P3_INDEX "01 00 07 00 00 00 02 08 01 F0 " END
/* A main piece, an absolute one and one in zero page, each with fields. */
#define MIXED "01 00 0D 00 00 00 04 02 00 00 04 01 00 08 02 80 00 07 01 30 00 02 06 00 00 00 07 0A 00 10 02 07 00 00 " END

#define BETWEEN MOVE_BY_INDEX(8192, 128, 12416, 128)

static const struct directed moves[] = {
    {"P2 by P1's index", BETWEEN, P1_INDEX, STARTED(12416, 3, 1), "3080: 4C 83 30; 2000: 4C 03 20", "0000: 00*12416 01 03 03 00*53117", .before = "2000: 4C 03 20"},
    {"P5 by P3's index", MOVE_BY_INDEX(8208, 128, 8192, 128), P3_INDEX, LOADED(2, 1), "2000: A2 20", "1FFF: 00 01 03 00", .before = "2010: A2 21"},
    {"up over itself", MOVE_BY_INDEX(8192, 128, 8193, 128), "01 " PLAIN_4 END, LOADED(4, 0), "2000: 11 11 22 33 44 99", .before = "2000: 11 22 33 44 88 99"},
    {"down over itself", MOVE_BY_INDEX(8193, 128, 8192, 128), "01 " PLAIN_4 END, LOADED(4, 0), "2000: 22 33 44 88 88 99", .before = "2000: 11 22 33 44 88 99"},
    {"nowhere", MOVE_BY_INDEX(8192, 128, 8192, 128), P1_INDEX, STARTED(8192, 3, 1), "2000: 77 88 99", .before = "2000: 77 88 99"},
    {"a live word", BETWEEN, P1_INDEX, STARTED(12416, 3, 1), "3080: EA 81 46", .before = "2000: EA 01 36"},
    {"a word below its base", MOVE_BY_INDEX(8192, 128, 0, 128), P1_INDEX, STARTED(0, 3, 1), "0000: 4C 00 F0", .before = "2000: 4C 00 10"},
    {"pieces in another order than their places", MOVE_BY_INDEX(8192, 128, 8194, 128), "01 00 04 00 00 02 02 00 04 00 00 00 02 " END, LOADED(4, 0), "2002: 11 22 33 44", .before = "2000: 11 22 33 44"},
    {"an address has its high byte first", BETWEEN, "01 00 04 00 12 34 01 " END, LOADED(1, 0), "42B4: 77", "42B3: 00 01 00", .before = "3234: 77"},
    {"pieces of each kind", MOVE_BY_INDEX(0x20F0, 0x40, 0x4180, 0x44), MIXED, LOADED(8, 5), "4180: 91 24 54 44; 3000: E5 86; 0054: 07 29; 20F0: 01 20 33 44; 0050: 77 08", "3000: 03 03 00; 0050: 00*4 03 03 00", .before = "20F0: 01 20 33 44; 3000: 55 66; 0050: 77 08"},
    {"zero page alone moves", MOVE_BY_INDEX(8192, 0, 8192, 255), "01 00 07 0A 00 00 01 05 00 00 " END, LOADED(1, 1), "00FF: 0F", .before = "0000: 10"},
    {"zero page at 255 and no further", MOVE_BY_INDEX(8192, 0, 8192, 255), "01 00 04 0A 00 00 01 " END, LOADED(1, 0), "00FF: 10", "00FE: 00 01 00", .before = "0000: 10"},
    {"high byte up to the next page", MOVE_BY_INDEX(0x2000, 0, 0x2001, 0), "01 00 07 00 00 00 01 08 00 FF " END, LOADED(1, 1), "2001: 21", .before = "2000: 20"},
    {"high byte within its page", MOVE_BY_INDEX(0x2001, 0, 0x20FF, 0), "01 00 07 00 00 00 01 08 00 FF " END, LOADED(1, 1), "20FF: 21", .before = "2001: 21"},
    {"high byte in zero page up to the next page", MOVE_BY_INDEX(0x2000, 16, 0x2001, 32), "01 00 07 0A 00 00 01 09 00 FF " END, LOADED(1, 1), "0020: 21; 0010: 20", .before = "0010: 20"},
    {"no piece at all", MOVE_BY_INDEX(0, 0, 65535, 255), "01 " END, LOADED(0, 0), NULL, "0000: 00*65536"},

    {"a live vector", MOVE_BY_INDEX(8192, 128, 8448, 128), "01 " VECTOR END, LOADED(2, 1), "01FF: 11 00 22 33", "01FF: 00 03 03 00", .before = "01FF: 11 00 21 33"},
    {"the bytes beside a vector", BETWEEN, "01 00 07 01 01 FF 04 06 01 00 " END, LOADED(4, 1), "01FF: EA B4 22 99", "01FE: 00 01 03 03 01 00", .before = "01FF: EA 34 12 99"},
    {"absolute code without a vector stays", BETWEEN, "01 00 04 01 30 00 02 " END, LOADED(2, 0), "3000: 55 66", "2FFF: 00 01 01 00", .before = "3000: 55 66"},
    {"the fixups of absolute code", MOVE_BY_INDEX(0x20F0, 0x40, 0x4180, 0x44), "01 00 10 01 30 00 05 02 00 00 04 01 00 06 02 00 08 04 80 " END, LOADED(5, 4), "3000: 91 24 C3 64 76", .before = "3000: 01 20 33 44 55"},
    {"a vector and the code that it points to", MOVE_BY_INDEX(8192, 128, 8193, 128), "01 " VECTOR PLAIN_4 END, LOADED(6, 1), "0200: 03 20; 2000: 11 11 22 33 44 99", .before = "0200: 02 20; 2000: 11 22 33 44 88 99"},

    /* "bytes placed may here exceed the index's length" */
    {"253 bytes placed by an index of 13", BETWEEN, "01 00 04 00 00 00 FD " END, LOADED(253, 0), "3080: 5A*253", "307F: 00 01*253 00", .before = "2000: 5A*253"},
    {"506 bytes placed by an index of 19", BETWEEN, "01 00 04 00 00 00 FD 00 04 00 00 FD FD " END, LOADED(506, 0), "3080: 5A*506", "307F: 00 01*506 00", .before = "2000: 5A*506"},
    {"an index of 65,536 bytes", BETWEEN, "01 (" EMPTY ")*10920 00 07 00 00 00 01 02 00 00 " END, LOADED(1, 1), "3080: F7", "0000: 00*12416 03 00*53119", .before = "2000: 77"},
    {"code of no bytes", BETWEEN, "01 " EMPTY END, LOADED(0, 0), NULL, "0000: 00*65536"},
    {"code of no bytes inside a piece", BETWEEN, "01 " PLAIN_3 "00 04 00 00 01 00 " END, LOADED(3, 0)},
    {"code of no bytes at 65,536", MOVE_BY_INDEX(65535, 0, 0, 0), "01 00 04 00 00 01 00 " END, LOADED(0, 0)},
    {"code of no bytes in zero page at 256", MOVE_BY_INDEX(0, 255, 0, 0), "01 00 04 0A 00 01 00 " END, LOADED(0, 0)},

    /* "unused LSBs ignored" */
    {"unused LSBs in main code", MOVE_BY_INDEX(0x20F0, 0x40, 0x4180, 0x44), "01 00 0D 00 00 00 04 02 00 FF 04 01 80 06 02 01 " END, LOADED(4, 3), "4180: 91 24 C3 64", .before = "20F0: 01 20 33 44"},
    {"unused LSBs in zero page", MOVE_BY_INDEX(0x20F0, 0x40, 0x4180, 0x44), "01 00 0D 0A 00 10 04 03 00 FF 05 01 80 07 02 01 " END, LOADED(4, 3), "0054: 91 24 C3 64", .before = "0050: 01 20 33 44"},
    {"unused LSBs in absolute code", MOVE_BY_INDEX(0x20F0, 0x40, 0x4180, 0x44), "01 00 0D 01 30 00 04 02 00 FF 04 01 80 06 02 01 " END, LOADED(4, 3), "3000: 91 24 C3 64", .before = "3000: 01 20 33 44"},

    {"no start, whatever its address", MOVE_BY_INDEX(65533, 128, 65532, 128), "01 " PLAIN_3 "00 04 0B 00 FF FF", LOADED(3, 0)},
    {"start absolute", BETWEEN, "01 " PLAIN_3 "00 04 0B 01 12 34", STARTED(0x1234, 3, 0)},
    {"start plus main base", BETWEEN, "01 " PLAIN_3 "00 04 0B 02 12 34", STARTED(0x42B4, 3, 0)},
    {"start at 65,535", BETWEEN, "01 " PLAIN_3 "00 04 0B 02 CF 7F", STARTED(65535, 3, 0)},
    {"start 0 is a start", BETWEEN, "01 00 04 0B 01 00 00", STARTED(0, 0, 0)},
};

/* "Refusals: 1 to 3 as for a file; an empty index is 5, then 24, at offset 0, for another version; per entry 5 if cut, 9 if empty, 6, 9 where
 * its length is wrong or its code passes 253, then as for records, each fixup in turn 18 for any bad kind, 12, 13" */
static const struct directed refusals[] = {
    {"old main base 65,536", MOVE_BY_INDEX(65536, 128, 8192, 128), P1_INDEX, REFUSED(2, 0)},
    {"old zero-page base 256", MOVE_BY_INDEX(8192, 256, 8192, 128), P1_INDEX, REFUSED(2, 0)},
    {"old main base of 32 bits", MOVE_BY_INDEX(4294967295u, 128, 8192, 128), P1_INDEX, REFUSED(2, 0)},
    {"both bases out of range", MOVE_BY_INDEX(65536, 128, 65536, 128), P1_INDEX, REFUSED(2, 0)},
    {"2 before 3", MOVE_BY_INDEX(65536, 128, 8192, 128), "00*65537", REFUSED(2, 0)},
    {"2 before 5", MOVE_BY_INDEX(8192, 256, 8192, 128), "", REFUSED(2, 0)},
    {"2 before 24", MOVE_BY_INDEX(65536, 128, 8192, 128), "00", REFUSED(2, 0)},
    {"an index of 65,537 bytes", BETWEEN, "01 (" EMPTY ")*10920 00 07 00 00 00 01 02 00 00 " END " 00", REFUSED(3, 0)},
    {"3 before 24", BETWEEN, "00*65537", REFUSED(3, 0)},
    {"an empty index", BETWEEN, "", REFUSED(5, 0)},
    {"version 0", BETWEEN, "00 " JUMP END, REFUSED(24, 0)},
    {"version 2", BETWEEN, "02 " JUMP END, REFUSED(24, 0)},
    {"version 255", BETWEEN, "FF " JUMP END, REFUSED(24, 0)},
    {"another version alone", BETWEEN, "02", REFUSED(24, 0)},
    {"24 before 5", BETWEEN, "00 00", REFUSED(24, 0)},
    {"24 before 9", BETWEEN, "00 00 00", REFUSED(24, 0)},
    {"a file is no index", BETWEEN, "00 05 00 00 4C 03 00 06 01 01 0B 02 00 00", REFUSED(24, 0)},

    {"a version alone", BETWEEN, "01", REFUSED(5, 1)},
    {"no end entry", BETWEEN, "01 " JUMP, REFUSED(5, 10)},
    {"no end entry in 65,533 bytes", BETWEEN, "01 (" EMPTY ")*10922", REFUSED(5, 65533)},
    {"half a length", BETWEEN, "01 " JUMP "00", REFUSED(5, 10)},
    {"half a length that is not zero", BETWEEN, "01 " JUMP "04", REFUSED(5, 10)},
    {"a length alone", BETWEEN, "01 " JUMP "00 04", REFUSED(5, 10)},
    {"all but the last byte of an entry", BETWEEN, "01 " JUMP "00 04 0B 00 00", REFUSED(5, 10)},
    {"all but the last byte of a fixup", BETWEEN, "01 " JUMP "00 07 00 00 03 01 02 00", REFUSED(5, 10)},
    {"a length of 65,535", BETWEEN, "01 " JUMP "FF FF 0B 00 00 00", REFUSED(5, 10)},
    {"lengths with their low byte first", BETWEEN, "01 07 00 00 00 00 03 06 01 00 04 00 0B 00 00 00", REFUSED(5, 1)},
    {"5 before 6", BETWEEN, "01 " JUMP "00 05 0C 00 00 00", REFUSED(5, 10)},
    {"5 before 9", BETWEEN, "01 " JUMP "00 05 0B 00 00 00", REFUSED(5, 10)},
    {"5 before 10", BETWEEN, "01 " JUMP "00 07 00 FF FF 03", REFUSED(5, 10)},
    {"5 before 17", BETWEEN, "01 " JUMP "00 07 00 00 00 03", REFUSED(5, 10)},
    {"5 before 18", BETWEEN, "01 " JUMP "00 0A 00 00 03 01 03 00 00", REFUSED(5, 10)},

    {"an empty entry", BETWEEN, "01 00 00 " END, REFUSED(9, 1)},
    {"an empty entry and no more", BETWEEN, "01 00 00", REFUSED(9, 1)},
    {"an empty entry after another", BETWEEN, "01 " JUMP "00 00 " END, REFUSED(9, 10)},
    {"code of 254 bytes", BETWEEN, "01 " JUMP "00 04 00 00 03 FE " END, REFUSED(9, 10)},
    {"code of 255 bytes", BETWEEN, "01 " JUMP "00 04 00 00 03 FF " END, REFUSED(9, 10)},
    {"absolute code of 254 bytes", BETWEEN, "01 " JUMP "00 04 01 30 00 FE " END, REFUSED(9, 10)},
    {"absolute code of 255 bytes", BETWEEN, "01 " JUMP "00 04 01 30 00 FF " END, REFUSED(9, 10)},
    {"zero page of 254 bytes", MOVE_BY_INDEX(8192, 0, 8192, 1), "01 " JUMP "00 04 0A 00 00 FE " END, REFUSED(9, 10)},
    {"code of 254 bytes with a fixup", BETWEEN, "01 " JUMP "00 07 00 00 03 FE 02 00 00 " END, REFUSED(9, 10)},
    {"9 before 10: code", BETWEEN, "01 " JUMP "00 04 00 FF FF FE " END, REFUSED(9, 10)},
    {"9 before 10: length", BETWEEN, "01 " JUMP "00 05 00 FF FF 02 00 " END, REFUSED(9, 10)},
    {"9 before 17: code", BETWEEN, "01 " JUMP "00 04 00 00 00 FE " END, REFUSED(9, 10)},
    {"9 before 17: length", BETWEEN, "01 " JUMP "00 06 00 00 00 03 02 00 " END, REFUSED(9, 10)},
    {"9 before 18", BETWEEN, "01 00 08 00 00 00 03 03 00 00 00 " END, REFUSED(9, 1)},

    {"flag 3", BETWEEN, "01 " JUMP "00 04 0B 03 00 00", REFUSED(6, 10)},
    {"flag 255", BETWEEN, "01 " JUMP "00 04 0B FF 00 00", REFUSED(6, 10)},
    {"6 before 19", BETWEEN, "01 " JUMP "00 04 0B 03 00 00 00", REFUSED(6, 10)},
    {"6 before 20", BETWEEN, "01 " JUMP "00 04 0B 03 FF FF", REFUSED(6, 10)},
    {"9 before 6: an end entry with another flag", BETWEEN, "01 " JUMP "00 05 0B 03 00 00 00", REFUSED(9, 10)},
    {"9 before 20: an end entry with a start too high", BETWEEN, "01 " JUMP "00 05 0B 02 FF FF 00", REFUSED(9, 10)},
    {"9 before 19: an end entry with bytes after it", BETWEEN, "01 " JUMP "00 03 0B 00 00 00", REFUSED(9, 10)},

    {"main up to 65,536", MOVE_BY_INDEX(8192, 128, 8191, 128), "01 " JUMP "00 04 00 DF FE 02 " END, LOADED(5, 1)},
    {"main up to 65,537", BETWEEN, "01 " JUMP "00 04 00 DF FF 02 " END, REFUSED(10, 10)},
    {"a place does not wrap", MOVE_BY_INDEX(65533, 128, 8192, 128), "01 " JUMP "00 04 00 00 03 01 " END, REFUSED(10, 10)},
    {"zero page up to 257", BETWEEN, "01 " JUMP "00 04 0A 00 80 01 " END, REFUSED(10, 10)},
    {"absolute up to 65,537", BETWEEN, "01 " JUMP "00 04 01 FF FF 02 " END, REFUSED(10, 10)},
    {"no code at 65,537", MOVE_BY_INDEX(65535, 128, 0, 128), "01 00 04 00 00 02 00 " END, REFUSED(10, 1)},
    {"no code in zero page at 257", MOVE_BY_INDEX(0, 255, 0, 0), "01 00 04 0A 00 02 00 " END, REFUSED(10, 1)},
    {"10 before 17", BETWEEN, "01 " PLAIN_3 "00 04 0A 00 80 01 00 04 00 00 00 03 " END, REFUSED(10, 7)},
    {"10 before 18", BETWEEN, "01 " JUMP "00 07 00 DF FF 02 03 00 00 " END, REFUSED(10, 10)},
    {"10 before 12", BETWEEN, "01 " JUMP "00 07 00 DF FF 02 02 02 00 " END, REFUSED(10, 10)},
    {"main over main", BETWEEN, "01 " JUMP "00 04 00 00 02 01 " END, REFUSED(17, 10)},
    {"absolute over main", BETWEEN, "01 " JUMP "00 04 01 1F FE 03 " END, REFUSED(17, 10)},
    {"absolute over zero page", BETWEEN, "01 00 04 0A 00 00 01 00 04 01 00 80 01 " END, REFUSED(17, 7)},
    {"17 before 18", BETWEEN, "01 " JUMP "00 07 00 00 02 01 03 00 00 " END, REFUSED(17, 10)},
    {"17 before 12", BETWEEN, "01 " JUMP "00 07 00 00 02 01 02 01 00 " END, REFUSED(17, 10)},

    {"18 before 12", BETWEEN, "01 " JUMP "00 07 00 00 03 01 03 01 00 " END, REFUSED(18, 10)},
    {"18 before 13", BETWEEN, "01 00 0A 00 00 00 03 02 00 00 03 00 00 " END, REFUSED(18, 1)},
    {"12, of a byte", BETWEEN, "01 " JUMP "00 07 00 00 03 01 02 01 00 " END, REFUSED(12, 10)},
    {"12, of a word half outside", BETWEEN, "01 " JUMP "00 07 00 00 03 02 06 01 00 " END, REFUSED(12, 10)},
    {"12, of a high byte", BETWEEN, "01 " JUMP "00 07 00 00 03 02 08 02 F0 " END, REFUSED(12, 10)},
    {"12, at index 255", BETWEEN, "01 00 07 00 00 00 FD 06 FF 00 " END, REFUSED(12, 1)},
    {"12, of code of no bytes", BETWEEN, "01 " JUMP "00 07 00 00 03 00 02 00 00 " END, REFUSED(12, 10)},
    {"12 before 13, of one fixup", BETWEEN, "01 00 0A 00 00 00 03 02 02 00 06 02 00 " END, REFUSED(12, 1)},
    {"13, of a byte", BETWEEN, "01 " JUMP "00 0A 00 00 03 02 02 01 00 04 01 00 " END, REFUSED(13, 10)},
    {"13, of a byte of a word", BETWEEN, "01 00 0A 00 00 00 03 06 01 00 02 02 00 " END, REFUSED(13, 1)},
    {"13, of a word over a byte", BETWEEN, "01 00 0A 00 00 00 03 02 01 00 06 00 00 " END, REFUSED(13, 1)},
    {"13, of a high byte with another LSB", BETWEEN, "01 00 0A 00 00 00 03 08 01 F0 08 01 0F " END, REFUSED(13, 1)},
    {"fixups of the code in their entry", BETWEEN, "01 00 04 00 00 00 03 00 07 00 00 03 01 02 01 00 " END, REFUSED(12, 7)},

    /* "each fixup in turn": what is wrong with the first comes before what is wrong with the second. */
    {"18 of the second before 12 of the third", BETWEEN, "01 00 0D 00 00 00 03 02 00 00 03 01 00 02 03 00 " END, REFUSED(18, 1)},
    {"18 of the second before 13 of the third", BETWEEN, "01 00 0D 00 00 00 03 02 00 00 03 01 00 02 00 00 " END, REFUSED(18, 1)},
    {"12 of the second before 18 of the third", BETWEEN, "01 00 0D 00 00 00 03 02 00 00 02 03 00 03 01 00 " END, REFUSED(12, 1)},
    {"12 of the second before 13 of the third", BETWEEN, "01 00 0D 00 00 00 03 02 00 00 02 03 00 02 00 00 " END, REFUSED(12, 1)},
    {"13 of the second before 18 of the third", BETWEEN, "01 00 0D 00 00 00 03 02 00 00 02 00 00 03 01 00 " END, REFUSED(13, 1)},
    {"13 of the second before 12 of the third", BETWEEN, "01 00 0D 00 00 00 03 02 00 00 02 00 00 02 03 00 " END, REFUSED(13, 1)},
    {"12 of the first before 18 of the second", BETWEEN, "01 00 0A 00 00 00 03 02 03 00 03 01 00 " END, REFUSED(12, 1)},
    {"fixups before the next entry's type", BETWEEN, "01 00 07 00 00 00 03 03 00 00 00 01 0C", REFUSED(18, 1)},
    {"fixups before a missing end entry", BETWEEN, "01 00 07 00 00 00 03 02 03 00", REFUSED(12, 1)},

    {"start at 65,536", BETWEEN, "01 " JUMP "00 04 0B 02 E0 00", REFUSED(20, 10)},
    {"20 before 19", BETWEEN, "01 " JUMP "00 04 0B 02 E0 00 00", REFUSED(20, 10)},
    {"a byte after the end entry", BETWEEN, "01 " JUMP END " 00", REFUSED(19, 10)},
    {"a second end entry", BETWEEN, "01 " JUMP END " " END, REFUSED(19, 10)},
    {"an entry after the end entry", BETWEEN, "01 " END " " JUMP, REFUSED(19, 1)},
    {"the unused room of a builder", BETWEEN, P1_INDEX " 00*65520", REFUSED(19, 10)},

    {"new main base 65,536", MOVE_BY_INDEX(8192, 128, 65536, 128), P1_INDEX, REFUSED_AT_NEW(2, 0)},
    {"new zero-page base 256", MOVE_BY_INDEX(8192, 128, 8192, 256), P1_INDEX, REFUSED_AT_NEW(2, 0)},
    {"a faulty entry before a new base out of range", MOVE_BY_INDEX(8192, 128, 65536, 128), "01 00 00", REFUSED(9, 1)},
    {"an index too long before a new base out of range", MOVE_BY_INDEX(8192, 128, 65536, 128), "00*65537", REFUSED(3, 0)},
    {"another version before a new base out of range", MOVE_BY_INDEX(8192, 128, 65536, 128), "02", REFUSED(24, 0)},
    {"fits at the old only", MOVE_BY_INDEX(8192, 128, 65534, 128), "01 " VECTOR JUMP END, REFUSED_AT_NEW(10, 10), "2000: 4C 03 20; 0200: 03 20", "0000: 00*65536", .before = "2000: 4C 03 20; 0200: 03 20"},
    {"fits at the new only", MOVE_BY_INDEX(65534, 128, 8192, 128), "01 " VECTOR JUMP END, REFUSED(10, 10)},
    {"fits at neither", MOVE_BY_INDEX(65534, 128, 65535, 128), "01 " VECTOR JUMP END, REFUSED(10, 10)},
    {"zero page fits at the old only", MOVE_BY_INDEX(8192, 254, 8448, 255), "01 " VECTOR "00 04 0A 00 00 02 " END, REFUSED_AT_NEW(10, 10)},
    {"onto a vector", MOVE_BY_INDEX(8192, 128, 0x01FD, 128), "01 " VECTOR PLAIN_4 END, REFUSED_AT_NEW(17, 10), "0200: 00 21", .before = "0200: 00 21"},
    {"off a vector", MOVE_BY_INDEX(0x01FD, 128, 8192, 128), "01 " VECTOR PLAIN_4 END, REFUSED(17, 10)},
    {"up to a vector", MOVE_BY_INDEX(8192, 128, 0x01FC, 128), "01 " VECTOR PLAIN_4 END, LOADED(6, 1), "01FC: 11 22 33 44 FC 02", .before = "0200: 00 21; 2000: 11 22 33 44"},
    {"start too high at the new", MOVE_BY_INDEX(8192, 128, 8193, 128), "01 " VECTOR "00 04 0B 02 DF FF", REFUSED_AT_NEW(20, 10)},
    {"start too high at the old", MOVE_BY_INDEX(8193, 128, 8192, 128), "01 " VECTOR "00 04 0B 02 DF FF", REFUSED(20, 10)},
};

/* The rows of crates/index/specs/Examples.antt, in its order: each index at the row's bases, where it is moved nowhere. */
#define AT(main, zero) MOVE_BY_INDEX(main, zero, main, zero)

static const struct directed by_hand[] = {
    {"by hand: P1's index where its file is loaded", AT(8192, 128), P1_INDEX, STARTED(8192, 3, 1)},
    {"by hand: P1's index up to 65,536", AT(65533, 128), P1_INDEX, STARTED(65533, 3, 1)},
    {"by hand: P1's index up to 65,537", AT(65534, 128), P1_INDEX, REFUSED(10, 1)},
    {"by hand: pieces of each kind", AT(32, 128), "01 00 0A 00 01 02 FD 08 FC 99 06 FA 00 00 10 0A 00 02 05 03 00 00 05 01 00 07 02 00 09 04 77 00 0A 01 04 03 02 02 00 00 04 01 00 00 04 0B 01 05 06", STARTED(0x0506, 260, 8)},
    {"by hand: main base 65,536 before an empty index", AT(65536, 128), "", REFUSED(2, 0)},
    {"by hand: zero-page base 256", AT(32, 256), P1_INDEX, REFUSED(2, 0)},
    {"by hand: an empty index", AT(32, 128), "", REFUSED(5, 0)},
    {"by hand: version 2 alone", AT(32, 128), "02", REFUSED(24, 0)},
    {"by hand: version 0", AT(32, 128), "00 00 04 0B 00 00 00", REFUSED(24, 0)},
    {"by hand: a version alone", AT(32, 128), "01", REFUSED(5, 1)},
    {"by hand: half a length word", AT(32, 128), "01 00", REFUSED(5, 1)},
    {"by hand: an entry without its last byte", AT(32, 128), "01 00 04 0B 00 00", REFUSED(5, 1)},
    {"by hand: no end entry behind a code entry", AT(32, 128), "01 00 04 00 00 00 01", REFUSED(5, 7)},
    {"by hand: an empty entry", AT(32, 128), "01 00 00", REFUSED(9, 1)},
    {"by hand: a fixup's type, though of one byte", AT(32, 128), "01 00 01 02", REFUSED(6, 1)},
    {"by hand: an unknown type", AT(32, 128), "01 00 04 0C 00 00 00", REFUSED(6, 1)},
    {"by hand: code of 1 byte", AT(32, 128), "01 00 01 00", REFUSED(9, 1)},
    {"by hand: code of 5 bytes", AT(32, 128), "01 00 05 00 00 00 01 02", REFUSED(9, 1)},
    {"by hand: code of 6 bytes", AT(32, 128), "01 00 06 00 00 00 01 02 00", REFUSED(9, 1)},
    {"by hand: an end of 3 bytes", AT(32, 128), "01 00 03 0B 00 00", REFUSED(9, 1)},
    {"by hand: an end of 5 bytes with another flag", AT(32, 128), "01 00 05 0B 09 00 00 00", REFUSED(9, 1)},
    {"by hand: 254 bytes of code that do not fit", AT(32, 128), "01 00 04 00 FF FF FE", REFUSED(9, 1)},
    {"by hand: flag 3", AT(32, 128), "01 00 04 0B 03 00 00", REFUSED(6, 1)},
    {"by hand: code too high, with a bad fixup", AT(32, 128), "01 00 07 00 FF E0 01 03 00 00", REFUSED(10, 1)},
    {"by hand: zero page too high", AT(32, 128), "01 00 04 0A 00 7F 02", REFUSED(10, 1)},
    {"by hand: two pieces share an address", AT(32, 128), "01 00 04 00 00 00 02 00 04 01 00 21 01", REFUSED(17, 7)},
    {"by hand: 03 after 00", AT(32, 128), "01 00 07 00 00 00 01 03 00 00", REFUSED(18, 1)},
    {"by hand: 02 after 0A", AT(32, 128), "01 00 07 0A 00 00 01 02 00 00", REFUSED(18, 1)},
    {"by hand: 05 after 01", AT(32, 128), "01 00 07 01 00 00 01 05 00 00", REFUSED(18, 1)},
    {"by hand: an unknown kind", AT(32, 128), "01 00 07 00 00 00 01 0C 00 00", REFUSED(18, 1)},
    {"by hand: a type that is no fixup's", AT(32, 128), "01 00 07 00 00 00 01 00 00 00", REFUSED(18, 1)},
    {"by hand: 12 of the first before a bad kind", AT(32, 128), "01 00 0A 00 00 00 01 02 09 00 0C 00 00", REFUSED(12, 1)},
    {"by hand: a bad kind before 12 of the third", AT(32, 128), "01 00 0D 00 00 00 01 02 00 00 0C 00 00 02 09 00", REFUSED(18, 1)},
    {"by hand: a bad kind before its field", AT(32, 128), "01 00 07 00 00 00 01 0C 09 00", REFUSED(18, 1)},
    {"by hand: a word's second byte outside", AT(32, 128), "01 00 07 00 00 00 02 06 01 00", REFUSED(12, 1)},
    {"by hand: a word's second byte again", AT(32, 128), "01 00 0A 00 00 00 02 06 00 00 02 01 00", REFUSED(13, 1)},
    {"by hand: unused LSBs", AT(32, 128), "01 00 0A 00 00 00 03 06 01 63 02 00 63 00 04 0B 02 00 00", STARTED(32, 3, 2)},
    {"by hand: start too high", AT(32, 128), "01 00 04 00 00 00 01 00 04 0B 02 FF E0", REFUSED(20, 7)},
    {"by hand: a byte after the end entry", AT(32, 128), "01 00 04 0B 00 00 00 00", REFUSED(19, 1)},
    {"by hand: start too high before a byte after it", AT(32, 128), "01 00 04 0B 02 FF E0 00", REFUSED(20, 1)},
    {"by hand: flag 0 with an address", AT(32, 128), "01 00 04 0B 00 12 34", LOADED(0, 0)},
};

/* An entry of this type and length behind P1's, all there, its other bytes 10. It is no entry at all, so it is refused with this number. */
static void run_entry(struct driver *driver, uint32_t type, uint32_t length, uint32_t number)
{
    char name[64], index[128];
    snprintf(name, sizeof name, "an entry of type %02X and length %u", type, length);
    int at = snprintf(index, sizeof index, "01 " JUMP "%02X %02X %02X", length / 256, length % 256, type);
    if (length > 1)
        at += snprintf(index + at, sizeof index - (size_t)at, " 10*%u", length - 1);
    snprintf(index + at, sizeof index - (size_t)at, " " END);
    struct directed refused = {name, BETWEEN, index, REFUSED(number, 10)};
    run_directed(driver, &refused);
}

/* "6" for every type that no entry has, those of fixups too, whatever the length; "9 where its length is wrong" */
static void types_and_lengths(struct driver *driver)
{
    static const uint32_t unknown[] = {2, 3, 4, 5, 6, 7, 8, 9, 0x0C, 0x0D, 0x10, 0x7F, 0x80, 0xFE, 0xFF}, known[] = {0x00, 0x0A, 0x01, 0x0B};
    static const uint32_t lengths[] = {1, 2, 3, 4, 5, 6, 7, 8, 9, 10, 256, 260, 262, 764};
    for (size_t i = 0; i < sizeof lengths / sizeof lengths[0]; i++) {
        for (size_t type = 0; type < sizeof unknown / sizeof unknown[0]; type++)
            run_entry(driver, unknown[type], lengths[i], 6);
        for (size_t type = 0; type < sizeof known / sizeof known[0]; type++)
            if (known[type] == 0x0B ? lengths[i] != 4 : lengths[i] < 4 || lengths[i] % 3 != 1)
                run_entry(driver, known[type], lengths[i], 9);
    }
}

/* Every kind of fixup in code of each type: "18 for any bad kind". The field is the byte or word at 0 of three bytes. */
static void kinds_in_codes(struct driver *driver)
{
    static const uint32_t types[] = {0x00, 0x0A, 0x01};
    for (uint32_t kind = 0; kind < 256; kind += kind < 16 || kind > 252 ? 1 : 59)
        for (size_t i = 0; i < sizeof types / sizeof types[0]; i++) {
            bool suits = kind >= 2 && kind <= 9 && kind % 2 == (types[i] == 0x0A ? 1 : 0);
            char name[64], index[96];
            snprintf(name, sizeof name, "kind %02X in code of type %02X", kind, types[i]);
            snprintf(index, sizeof index, "01 00 07 %02X 00 00 03 %02X 00 00 " END, types[i], kind);
            struct directed yes = {name, BETWEEN, index, LOADED(3, 1)};
            struct directed no = {name, BETWEEN, index, REFUSED(18, 1)};
            run_directed(driver, suits ? &yes : &no);
        }
}

/* An entry with so many fixups of code of 253 bytes, whose length takes both its bytes from 84 on; a 254th fixup has no byte left. */
static void many_fixups(struct driver *driver, uint32_t count)
{
    char name[64], index[4096];
    uint32_t length = 4 + 3 * count;
    snprintf(name, sizeof name, "an entry with %u fixups", count);
    int at = snprintf(index, sizeof index, "01 %02X %02X 00 00 00 FD ", length / 256, length % 256);
    for (uint32_t i = 0; i < count; i++)
        at += snprintf(index + at, sizeof index - (size_t)at, "04 %02X 00 ", i % 253);
    snprintf(index + at, sizeof index - (size_t)at, END);
    struct directed yes = {name, MOVE_BY_INDEX(8192, 128, 8192, 129), index, LOADED(253, count), "2000: 5B*83", .before = "2000: 5A*253"};
    struct directed no = {name, MOVE_BY_INDEX(8192, 128, 8192, 129), index, REFUSED(13, 1)};
    run_directed(driver, count <= 253 ? &yes : &no);
}

/* "bytes placed may here exceed the index's length": all of memory, by 260 entries. Where everything is full only fields can change, here
 * the last byte by the zero-page base. */
static void all_of_memory(struct driver *driver)
{
    char index[8192];
    int at = snprintf(index, sizeof index, "01 ");
    for (uint32_t address = 0; address < 65527; address += 253)
        at += snprintf(index + at, sizeof index - (size_t)at, "00 04 %02X %02X %02X FD ", address / 253 % 2, address / 256, address % 256);
    snprintf(index + at, sizeof index - (size_t)at, "00 07 00 FF F7 09 04 08 00 " END);
    struct directed all = {"65,536 bytes placed by an index of 1,570", MOVE_BY_INDEX(0, 128, 0, 129), index, LOADED(65536, 1), "0000: 5A*65535 5B", "0000: 01*65535 03", .before = "0000: 5A*65536"};
    run_directed(driver, &all);
}

/* As many fields as an index has room for, but for a few: every byte of 85 pieces of 253 bytes, by kinds 02, 04 and 08 in turn, over itself. */
static void most_fields(struct driver *driver)
{
    static const char *const kinds[] = {"02 %02X 00 ", "04 %02X 00 ", "08 %02X 80 "};
    static char index[1 << 18];
    int at = snprintf(index, sizeof index, "01 ");
    for (uint32_t field = 0; field < 85 * 253; field++) {
        if (field % 253 == 0)
            at += snprintf(index + at, sizeof index - (size_t)at, "02 FB 00 %02X %02X FD ", field / 256, field % 256);
        at += snprintf(index + at, sizeof index - (size_t)at, kinds[field % 3], field % 253);
    }
    snprintf(index + at, sizeof index - (size_t)at, END);
    struct directed most = {"21,505 fields by an index of 65,032 bytes", MOVE_BY_INDEX(0x2000, 0x40, 0x4181, 0x44), index, LOADED(21505, 21505), "2000: 5A*8577 (DB 5E 7C)*7168 DB 77", "4180: 00 03*21505 00", .before = "2000: 5A*21505; 9582: 77"};
    run_directed(driver, &most);
}

/* An index with entries of each kind, cut behind each of its bytes: "5 if cut", at the entry that is, or at 0 where nothing is left. */
static void cut_entries(struct driver *driver)
{
    static const char whole[] = "01 " JUMP VECTOR "00 0A 0A 00 00 02 09 01 F0 05 00 00 " END;
    static const size_t begins[] = {1, 10, 19, 31, 37};
    struct directed all = {"entries of each kind", BETWEEN, whole, LOADED(7, 4)};
    run_directed(driver, &all);
    for (size_t length = 0, entry = 0; length < 37; length++) {
        char name[64], index[128];
        while (length >= begins[entry + 1])
            entry++;
        snprintf(name, sizeof name, "entries of each kind, cut to %zu bytes", length);
        snprintf(index, sizeof index, "%.*s", 3 * (int)length, whole);
        struct directed cut = {name, BETWEEN, index, REFUSED(5, length == 0 ? 0 : (uint32_t)begins[entry])};
        run_directed(driver, &cut);
    }
}

void cases_index(struct driver *driver)
{
    static const uint32_t counts[] = {83, 84, 85, 169, 170, 252, 253, 254, 255, 300};
    for (size_t i = 0; i < sizeof moves / sizeof moves[0]; i++)
        run_directed(driver, &moves[i]);
    for (size_t i = 0; i < sizeof refusals / sizeof refusals[0]; i++)
        run_directed(driver, &refusals[i]);
    for (size_t i = 0; i < sizeof by_hand / sizeof by_hand[0]; i++)
        run_directed(driver, &by_hand[i]);
    types_and_lengths(driver);
    kinds_in_codes(driver);
    for (size_t i = 0; i < sizeof counts / sizeof counts[0]; i++)
        many_fixups(driver, counts[i]);
    all_of_memory(driver);
    most_fields(driver);
    cut_entries(driver);
}
