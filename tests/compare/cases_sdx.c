/* Directed cases for the SDX loader: P6 to P8 of document 01's table, each check of "SDX blocks, checks in order", the bounds, and the places
 * that document 02's wish 6 gives to refusals. */
#include "directed.h"

/* Block 1, three bytes, offset 1000: at 1F00 under the default settings. */
#define BLOCK_1 "FE FF 01 00 00 10 03 00 4C 00 10 "
#define UPDATE_1 "FD FF 01 00 00 "
#define P6 BLOCK_1 UPDATE_1 "FE 01 01 FC"
#define EMPTY(number) "FE FF " number " 00 00 00 00 00 "
#define SEVEN EMPTY("00") EMPTY("01") EMPTY("02") EMPTY("03") EMPTY("04") EMPTY("05") EMPTY("06")
#define NEW_NAME(offset, name) "FC FF 01 " offset " '" name "' "

/* The files of document 02's wish 3, and known names alike in seven bytes. */
#define NAMES_5000(name) "(FB FF '" name "' 00 00 FC)*5000"
#define KNOWN_256 "'ENTRANT0' 'ENTRANT1'*254 'ENTRANT2'", "(34 12)*256"

/* For wish 6: a plain block; an update's first two items; names that are known, and their body's first two items. */
#define PLAIN_1 "FF FF 00 40 00 40 11 "
#define TWO_ITEMS UPDATE_1 "FE 01 01 "
#define NAMED "FB FF 'GRAPHICS' 00 00 "
#define TWO_NAMED NAMED "FE 01 01 "
#define GRAPHICS_KNOWN .known_names = "'GRAPHICS'", "34 12"

static const struct directed cases[] = {
    {"P6", SDX_DEFAULT, P6, SDX_LOADED(3, 1, 0, 7939), "1F00: 4C 00 1F", "1EFF: 00 01 03 03 00", "", ""},
    {"P7", SDX_DEFAULT, BLOCK_1 UPDATE_1 "FE 01 01", REFUSED(5, 19)},
    {"P8", SDX_DEFAULT, "", REFUSED(5, 0)},

    {"high equal to low + length", SDX_AT(7936, 7939), P6, SDX_LOADED(3, 1, 0, 7939), "1F00: 4C 00 1F"},
    {"high one less", SDX_AT(7936, 7938), P6, REFUSED(10, 6)},
    {"high equal to low + length at the top", SDX_AT(65532, 65535), P6, SDX_LOADED(3, 1, 0, 65535), "FFFC: 4C FC FF", "FFFB: 00 01 03 03 00"},
    {"one byte more than fits at the top", SDX_AT(65533, 65535), P6, REFUSED(10, 6)},
    {"low equal to high, empty block", SDX_AT(65535, 65535), EMPTY("00"), SDX_LOADED(0, 0, 0, 65535)},
    {"low 0", SDX_AT(0, 65535), P6, SDX_LOADED(3, 1, 0, 3), "0000: 4C 00 00", "0000: 01 03 03 00"},
    {"low above high", SDX_AT(7937, 7936), P6, REFUSED(2, 0)},
    {"high 65,536", SDX_AT(7936, 65536), P6, REFUSED(2, 0)},
    {"low and high 65,536", SDX_AT(65536, 65536), P6, REFUSED(2, 0)},
    {"high of 32 bits", SDX_AT(7936, 4294967295u), P6, REFUSED(2, 0)},
    {"low and high default but for their upper halves", SDX_AT(65536 + 7936, 65536 + 39936), P6, REFUSED(2, 0)},
    {"2 before 3", SDX_AT(1, 0), "00*65537", REFUSED(2, 0)},

    {"a file of 65,536 bytes", SDX_DEFAULT, "FF FF 00 00 F9 FF 77*65530", SDX_STARTED(0x7777, 65530, 0, 0, 7936)},
    {"a file of 65,537 bytes", SDX_DEFAULT, "FF FF 00 00 F9 FF 77*65531", REFUSED(3, 0)},
    {"one byte", SDX_DEFAULT, "FF", REFUSED(5, 1)},
    {"one byte that opens nothing", SDX_DEFAULT, "00", REFUSED(5, 1)},
    {"first word FFF9", SDX_DEFAULT, "F9 FF FF FF", REFUSED(4, 0)},
    {"4 before a cut header", SDX_DEFAULT, "00 00", REFUSED(4, 0)},
    {"a leftover byte", SDX_DEFAULT, P6 " 00", REFUSED(5, 21)},

    {"plain end 65,535", SDX_DEFAULT, "FF FF FF FF FF FF AA", SDX_LOADED(1, 0, 0, 7936), "FFFF: AA", "FFFE: 00 01"},
    {"plain start FFFA with marker FFFA", SDX_DEFAULT, "FA FF FA FF FF FF 01 02 03 04 05 06", SDX_LOADED(6, 0, 0, 7936), "FFFA: 01 02 03 04 05 06"},
    {"plain start FFF9 without marker", SDX_DEFAULT, "FF FF 00 40 00 40 11 F9 FF FA FF 22 33", SDX_LOADED(3, 0, 0, 7936), "4000: 11; FFF9: 22 33"},
    {"end below start", SDX_DEFAULT, "FF FF 01 40 00 40 11", REFUSED(9, 4)},
    {"9 before missing data", SDX_DEFAULT, "FF FF 00 00 00 00 11 01 40 00 40", REFUSED(9, 9)},
    {"9 before missing data, with marker", SDX_DEFAULT, "FF FF 01 40 00 40", REFUSED(9, 4)},
    {"plain data missing", SDX_DEFAULT, "FF FF 00 40 01 40 11", REFUSED(5, 7)},
    {"plain end missing", SDX_DEFAULT, "FF FF 00 40 01", REFUSED(5, 5)},
    {"plain end missing without marker", SDX_DEFAULT, "FF FF 00 40 00 40 11 00 40 00", REFUSED(5, 10)},
    {"overwritten bytes count twice", SDX_DEFAULT, "FF FF 00 40 01 40 11 22 01 40 02 40 33 44", SDX_LOADED(4, 0, 0, 7936), "4000: 11 33 44"},

    {"start", SDX_DEFAULT, "FF FF E0 02 E1 02 34 12", SDX_STARTED(0x1234, 2, 0, 0, 7936)},
    {"half a start", SDX_DEFAULT, "FF FF E0 02 E0 02 34", SDX_LOADED(1, 0, 0, 7936)},
    {"the other half", SDX_DEFAULT, "FF FF E1 02 E1 02 34", SDX_LOADED(1, 0, 0, 7936)},
    {"start 0 is a start", SDX_DEFAULT, "FF FF E0 02 E1 02 00 00", SDX_STARTED(0, 2, 0, 0, 7936)},
    {"a start that is adjusted", SDX_DEFAULT, BLOCK_1 "E0 02 E1 02 01 10 " UPDATE_1 "FD E0 02 FC", SDX_STARTED(0x1F01, 5, 1, 0, 7939)},
    {"a start placed twice", SDX_DEFAULT, "FF FF E0 02 E1 02 34 12 E1 02 E1 02 56", SDX_STARTED(0x5634, 3, 0, 0, 7936)},
    {"a start that is reserved over", SDX_AT(0x2E1, 0x2E2), "FF FF E0 02 E1 02 34 12 FE FF 00 80 00 00 01 00", SDX_LOADED(2, 0, 0, 0x2E2), "02E0: 34 12", "02E0: 01 02 00"},

    {"block number 8", SDX_DEFAULT, "FE FF 08 00 00 00 00 00", REFUSED(6, 2)},
    {"memory kind 81", SDX_DEFAULT, "FE FF 00 81 00 00 00 00", REFUSED(6, 3)},
    {"block header cut", SDX_DEFAULT, "FE FF 00 00 00 00 00", REFUSED(5, 7)},
    {"block data missing", SDX_DEFAULT, "FE FF 00 00 00 00 02 00 11", REFUSED(5, 9)},
    {"5 before 10", SDX_AT(7936, 7936), "FE FF 00 00 00 00 02 00 11", REFUSED(5, 9)},
    {"block number used before", SDX_DEFAULT, EMPTY("03") EMPTY("03"), REFUSED(7, 10)},
    {"seven blocks", SDX_DEFAULT, SEVEN, SDX_LOADED(0, 0, 0, 7936)},
    {"an eighth block", SDX_DEFAULT, SEVEN EMPTY("07"), REFUSED(7, 58)},
    {"7 before missing data", SDX_DEFAULT, SEVEN "FE FF 07 00 00 00 01 00", REFUSED(7, 58)},
    {"reserving", SDX_DEFAULT, "FE FF 07 80 00 10 03 00", SDX_LOADED(0, 0, 0, 7939), NULL, "1EFF: 00 02 02 02 00"},
    {"up to the default high", SDX_DEFAULT, "FE FF 07 80 00 10 00 7D", SDX_LOADED(0, 0, 0, 39936), NULL, "1EFF: 00 02*32000 00"},
    {"above the default high", SDX_DEFAULT, "FE FF 07 80 00 10 01 7D", REFUSED(10, 6)},
    {"reserving up to high", SDX_AT(0, 65535), "FE FF 07 80 00 10 FF FF", SDX_LOADED(0, 0, 0, 65535), NULL, "0000: 02*65535 00"},
    {"reserving above high", SDX_AT(1, 65535), "FE FF 07 80 00 10 FF FF", REFUSED(10, 6)},

    {"update of a block not there", SDX_DEFAULT, BLOCK_1 "FD FF 02 00 00 FC", REFUSED(8, 13)},
    {"8 before a missing body", SDX_DEFAULT, BLOCK_1 "FD FF 02 00 00", REFUSED(8, 13)},
    {"update of block 8", SDX_DEFAULT, BLOCK_1 "FD FF 08 00 00 FC", REFUSED(6, 13)},
    {"update header cut", SDX_DEFAULT, BLOCK_1 "FD FF 01 00", REFUSED(5, 15)},
    {"5 before 6 in an update", SDX_DEFAULT, BLOCK_1 "FD FF 08 00", REFUSED(5, 15)},
    {"the update length is ignored", SDX_DEFAULT, BLOCK_1 "FD FF 01 FF FF FE 01 01 FC 00 40 00 40 99", SDX_LOADED(4, 1, 0, 7939), "1F00: 4C 00 1F; 4000: 99"},
    {"an empty body", SDX_DEFAULT, BLOCK_1 UPDATE_1 "FC", SDX_LOADED(3, 0, 0, 7939), "1F00: 4C 00 10"},
    {"a block offset above its address", SDX_DEFAULT, "FE FF 01 00 00 F0 03 00 4C 02 F0 " UPDATE_1 "FE 01 01 FC", SDX_LOADED(3, 1, 0, 7939), "1F00: 4C 02 1F"},
    {"adding with the counter unset", SDX_DEFAULT, BLOCK_1 UPDATE_1 "00 FC", REFUSED(11, 16)},
    {"FF with the counter unset", SDX_DEFAULT, BLOCK_1 UPDATE_1 "FF FC", REFUSED(11, 16)},
    {"the counter is unset at each body's start", SDX_DEFAULT, BLOCK_1 UPDATE_1 "FE 01 FC " UPDATE_1 "01 FC", REFUSED(11, 24)},
    {"FD cut", SDX_DEFAULT, BLOCK_1 UPDATE_1 "FD 00", REFUSED(5, 18)},
    {"FE cut", SDX_DEFAULT, BLOCK_1 UPDATE_1 "FE", REFUSED(5, 17)},
    {"FE with number 8", SDX_DEFAULT, BLOCK_1 UPDATE_1 "FE 08 FC", REFUSED(6, 16)},
    {"6 before a missing end of the body", SDX_DEFAULT, BLOCK_1 UPDATE_1 "FE 08", REFUSED(6, 16)},
    {"FE with a block not there", SDX_DEFAULT, BLOCK_1 UPDATE_1 "FE 02 FC", REFUSED(8, 16)},
    {"FF adjusts nothing", SDX_DEFAULT, "FE FF 01 00 00 10 FE 00 00*252 00 10 " UPDATE_1 "FE 01 FF 02 FC", SDX_LOADED(254, 1, 0, 8190), "1F00: 00*252 00 1F", "1F00: 01*252 03 03 00"},
    {"FB adds 251", SDX_DEFAULT, "FE FF 01 00 00 10 FD 00 00*251 00 10 " UPDATE_1 "FE 01 FB FC", SDX_LOADED(253, 1, 0, 8189), "1F00: 00*251 00 1F", "1F00: 01*251 03 03 00"},
    {"FFFE is a marker, and no start", SDX_DEFAULT, BLOCK_1 "FE FF FF FF 02 10 " UPDATE_1 "FC", REFUSED(6, 13)},
    {"counter 65,534 by FD", SDX_DEFAULT, BLOCK_1 "FF FF FE FF FF FF 02 10 " UPDATE_1 "FD FE FF FC", SDX_LOADED(5, 1, 0, 7939), "FFFE: 02 1F", "FFFD: 00 03 03"},
    {"counter 65,535 by FD", SDX_DEFAULT, BLOCK_1 "FF FF FE FF FF FF 02 10 " UPDATE_1 "FD FF FF FC", REFUSED(11, 24)},
    {"counter 65,534 by adding", SDX_AT(65284, 65534), "FE FF 01 00 00 00 FA 00 00*250 FF FF FE FF FF FF 00 01 " UPDATE_1 "FE 01 FF 00 FC", SDX_LOADED(252, 1, 0, 65534), "FFFE: 04 00"},
    {"counter 65,535 by adding", SDX_AT(65284, 65534), "FE FF 01 00 00 00 FA 00 00*250 FF FF FE FF FF FF 00 01 " UPDATE_1 "FE 01 FF 01 FC", REFUSED(11, 274)},
    {"counter 65,535 by FF", SDX_AT(65285, 65535), EMPTY("01") UPDATE_1 "FE 01 FF FC", SDX_LOADED(0, 0, 0, 65285)},
    {"counter 65,536 by FF", SDX_AT(65286, 65535), EMPTY("01") UPDATE_1 "FE 01 FF FC", REFUSED(11, 15)},
    {"a field half loaded", SDX_DEFAULT, BLOCK_1 UPDATE_1 "FE 01 02 FC", REFUSED(12, 18)},
    {"a field loaded nowhere", SDX_DEFAULT, BLOCK_1 UPDATE_1 "FD 00 50 FC", REFUSED(12, 16)},
    {"a field whose first byte is not loaded", SDX_DEFAULT, BLOCK_1 UPDATE_1 "FD FF 1E FC", REFUSED(12, 16)},
    {"12 before a missing end of the body", SDX_DEFAULT, BLOCK_1 UPDATE_1 "FD 00 50", REFUSED(12, 16)},
    {"a reserved field", SDX_DEFAULT, "FE FF 01 80 00 10 03 00 " UPDATE_1 "FE 01 00 FC", REFUSED(12, 15)},
    {"a word adjusted twice", SDX_DEFAULT, BLOCK_1 UPDATE_1 "FE 01 01 00 FC", REFUSED(13, 19)},
    {"a byte adjusted twice", SDX_DEFAULT, BLOCK_1 UPDATE_1 "FE 01 00 01 FC", REFUSED(13, 19)},
    {"adjusted twice by two bodies", SDX_DEFAULT, BLOCK_1 UPDATE_1 "FE 01 01 FC " UPDATE_1 "FE 01 01 FC", REFUSED(13, 27)},
    {"12 before 13", SDX_DEFAULT, BLOCK_1 UPDATE_1 "FE 01 01 01 FC", REFUSED(12, 19)},
    {"placed again, adjusted again", SDX_DEFAULT, BLOCK_1 UPDATE_1 "FE 01 01 FC 01 1F 02 1F 00 10 " UPDATE_1 "FE 01 01 FC", SDX_LOADED(5, 2, 0, 7939), "1F00: 4C 00 1F", "1F00: 01 03 03 00"},
    {"half placed again", SDX_DEFAULT, BLOCK_1 UPDATE_1 "FE 01 01 FC 01 1F 01 1F 00 " UPDATE_1 "FE 01 01 FC", REFUSED(13, 32)},
    {"reserved over placed bytes", SDX_AT(0x4000, 0x5000), "FF FF 00 40 01 40 11 22 FE FF 00 80 00 00 02 00 FD FF 00 00 00 FD 00 40 FC", REFUSED(12, 21)},

    {"a name of the lent list", SDX_DEFAULT, BLOCK_1 "FB FF 'GRAPHICS' 00 00 FE 01 01 FC", SDX_LOADED(3, 1, 0, 7939), "1F00: 4C 34 22", NULL, "", "", "'GRAPHICS'", "34 12"},
    {"the lent list from its end", SDX_DEFAULT, BLOCK_1 "FB FF 'GRAPHICS' 00 00 FE 01 01 FC", SDX_LOADED(3, 1, 0, 7939), "1F00: 4C 78 66", NULL, "", "", "'GRAPHICS' 'GRAPHICS' 'GRAPHICT'", "34 12 78 56 00 00"},
    {"a sum of a name past 65,535", SDX_DEFAULT, BLOCK_1 "FB FF 'GRAPHICS' 00 00 FE 01 01 FC", SDX_LOADED(3, 1, 0, 7939), "1F00: 4C FF 0F", NULL, "", "", "'GRAPHICS'", "FF FF"},
    {"the file's name before the lent one", SDX_DEFAULT, BLOCK_1 NEW_NAME("01 10", "GRAPHICS") "FB FF 'GRAPHICS' 00 00 FE 01 01 FC", SDX_LOADED(3, 1, 1, 7939), "1F00: 4C 01 2F", NULL, "'GRAPHICS'", "01 1F", "'GRAPHICS'", "34 12"},
    {"the file's latest name", SDX_DEFAULT, BLOCK_1 NEW_NAME("01 10", "GRAPHICS") NEW_NAME("02 10", "GRAPHICS") "FB FF 'GRAPHICS' 00 00 FE 01 01 FC", SDX_LOADED(3, 1, 2, 7939), "1F00: 4C 02 2F", NULL, "'GRAPHICSGRAPHICS'", "01 1F 02 1F"},
    {"a name defined after its use", SDX_DEFAULT, BLOCK_1 "FB FF 'GRAPHICS' 00 00 FC " NEW_NAME("01 10", "GRAPHICS"), REFUSED(14, 13)},
    {"a name unlike in its last byte", SDX_DEFAULT, BLOCK_1 "FB FF 'GRAPHICS' 00 00 FE 01 01 FC", REFUSED(14, 13), .known_names = "'GRAPHICT'", "34 12"},
    {"14 before a missing body", SDX_DEFAULT, BLOCK_1 "FB FF 'GRAPHICS' 00 00", REFUSED(14, 13)},
    {"names header cut", SDX_DEFAULT, BLOCK_1 "FB FF 'GRAPHICS' 00", REFUSED(5, 22), .known_names = "'GRAPHICS'", "34 12"},
    {"names body cut", SDX_DEFAULT, BLOCK_1 "FB FF 'GRAPHICS' 00 00", REFUSED(5, 23), .known_names = "'GRAPHICS'", "34 12"},
    {"256 known names", SDX_DEFAULT, BLOCK_1 "FB FF 'GRAPHICS' 00 00 FE 01 01 FC", SDX_LOADED(3, 1, 0, 7939), "1F00: 4C 34 22", NULL, "", "", "'GRAPHICS' 'SCREENED'*255", "34 12 (00 00)*255"},
    {"the 256th known name", SDX_DEFAULT, BLOCK_1 "FB FF 'GRAPHICS' 00 00 FE 01 01 FC", SDX_LOADED(3, 1, 0, 7939), "1F00: 4C 34 22", NULL, "", "", "'SCREENED'*255 'GRAPHICS'", "(00 00)*255 34 12"},
    {"a name known first and 256th", SDX_DEFAULT, BLOCK_1 "FB FF 'GRAPHICS' 00 00 FE 01 01 FC", SDX_LOADED(3, 1, 0, 7939), "1F00: 4C 78 66", NULL, "", "", "'GRAPHICS' 'SCREENED'*254 'GRAPHICS'", "34 12 (00 00)*254 78 56"},
    {"5,000 names, each the newest of 256", SDX_DEFAULT, NAMES_5000("ENTRANT2"), SDX_LOADED(0, 0, 0, 7936), NULL, "0000: 00*65536", "", "", KNOWN_256},
    {"5,000 names, each the oldest of 256", SDX_DEFAULT, NAMES_5000("ENTRANT0"), SDX_LOADED(0, 0, 0, 7936), NULL, "0000: 00*65536", "", "", KNOWN_256},
    {"257 known names", SDX_DEFAULT, BLOCK_1, REFUSED(1, 0), .known_names = "'GRAPHICS'*257", "(34 12)*257"},
    {"a name at its block's first byte", SDX_DEFAULT, BLOCK_1 NEW_NAME("00 10", "FIRST   "), SDX_LOADED(3, 0, 1, 7939), .names = "'FIRST   '", "00 1F"},
    {"a name at its block's last byte", SDX_DEFAULT, BLOCK_1 NEW_NAME("02 10", "LAST    "), SDX_LOADED(3, 0, 1, 7939), .names = "'LAST    '", "02 1F"},
    {"a name behind its block", SDX_DEFAULT, BLOCK_1 NEW_NAME("03 10", "BEHIND  "), REFUSED(16, 14)},
    {"a name below its block", SDX_DEFAULT, BLOCK_1 NEW_NAME("FF 0F", "BELOW   "), REFUSED(16, 14)},
    {"a name in an empty block", SDX_DEFAULT, EMPTY("01") NEW_NAME("00 00", "NOWHERE "), REFUSED(16, 11)},
    {"a name past offset 65,535 does not wrap", SDX_DEFAULT, "FE FF 01 00 FF FF 02 00 11 22 " NEW_NAME("00 00", "WRAPPED "), REFUSED(16, 13)},
    {"a name in a reserved block", SDX_DEFAULT, "FE FF 01 80 00 10 03 00 " NEW_NAME("02 10", "ROOM    "), SDX_LOADED(0, 0, 1, 7939), .names = "'ROOM    '", "02 1F"},
    {"a name in block 8", SDX_DEFAULT, BLOCK_1 "FC FF 08 00 10 'MISPLACE'", REFUSED(6, 13)},
    {"a name in a block not there", SDX_DEFAULT, BLOCK_1 "FC FF 02 00 10 'MISPLACE'", REFUSED(8, 13)},
    {"a name cut", SDX_DEFAULT, BLOCK_1 "FC FF 08 00 10 'MISPLAC'", REFUSED(5, 23)},
    {"32 names", SDX_DEFAULT, BLOCK_1 "(FC FF 01 01 10 'REPEATED')*32", SDX_LOADED(3, 0, 32, 7939), .names = "'REPEATED'*32", "(01 1F)*32"},
    {"33 names", SDX_DEFAULT, BLOCK_1 "(FC FF 01 01 10 'REPEATED')*33", REFUSED(15, 432)},
    {"16 before 15", SDX_DEFAULT, BLOCK_1 "(FC FF 01 01 10 'REPEATED')*32 FC FF 01 03 10 'REPEATED'", REFUSED(16, 430)},

    /* Document 02, wish 6: "A refusal's offset should be that of the first byte of the field or item at fault". Blocks stand behind others
     * here, and items behind two others, where the rules allow it. */
    {"at the opening: its second byte", SDX_DEFAULT, "FF FE 00 40 00 40 11", REFUSED(4, 0)},
    {"at the end word: FFFF", SDX_DEFAULT, PLAIN_1 "FF FF 01 40 00 40 22", REFUSED(9, 11)},
    {"at the end word: FFFA", SDX_DEFAULT, PLAIN_1 "FA FF 01 40 00 40 22", REFUSED(9, 11)},
    {"at the end word: no marker", SDX_DEFAULT, PLAIN_1 "01 40 00 40 22", REFUSED(9, 9)},
    {"at the number: FFFE, 8", SDX_DEFAULT, BLOCK_1 "FE FF 08 00 00 00 00 00", REFUSED(6, 13)},
    {"at the number: FFFE, 8 and an unknown id", SDX_DEFAULT, BLOCK_1 "FE FF 08 81 00 00 00 00", REFUSED(6, 13)},
    {"at the id: FFFE", SDX_DEFAULT, BLOCK_1 "FE FF 02 81 00 00 00 00", REFUSED(6, 14)},
    {"at the number: FFFE, used before", SDX_DEFAULT, PLAIN_1 BLOCK_1 "FE FF 01 00 00 00 01 00 22", REFUSED(7, 20)},
    {"at the number: FFFE, an eighth block", SDX_DEFAULT, PLAIN_1 SEVEN EMPTY("07"), REFUSED(7, 65)},
    {"at the length word: FFFE, data", SDX_AT(7936, 7940), BLOCK_1 "FE FF 02 00 00 10 02 00 11 22", REFUSED(10, 17)},
    {"at the length word: FFFE, reserving", SDX_DEFAULT, BLOCK_1 "FE FF 02 80 00 10 FE 7C", REFUSED(10, 17)},
    {"at the number: FFFD, 8", SDX_DEFAULT, PLAIN_1 BLOCK_1 "FD FF 08 00 00 FC", REFUSED(6, 20)},
    {"at the number: FFFD, not there", SDX_DEFAULT, PLAIN_1 BLOCK_1 "FD FF 00 00 00 FC", REFUSED(8, 20)},
    {"at the name: FFFB", SDX_DEFAULT, PLAIN_1 BLOCK_1 NAMED "FC", REFUSED(14, 20)},
    {"at the number: FFFC, 8", SDX_DEFAULT, PLAIN_1 BLOCK_1 "FC FF 08 00 10 'MISPLACE'", REFUSED(6, 20)},
    {"at the number: FFFC, not there", SDX_DEFAULT, PLAIN_1 BLOCK_1 "FC FF 00 00 10 'MISPLACE'", REFUSED(8, 20)},
    {"at the offset word: FFFC, behind", SDX_DEFAULT, PLAIN_1 BLOCK_1 NEW_NAME("03 10", "BEHIND  "), REFUSED(16, 21)},
    {"at the offset word: FFFC, below", SDX_DEFAULT, PLAIN_1 BLOCK_1 NEW_NAME("FF 0F", "BELOW   "), REFUSED(16, 21)},
    {"at the name: FFFC", SDX_DEFAULT, PLAIN_1 BLOCK_1 "(FC FF 01 01 10 'REPEATED')*33", REFUSED(15, 439)},

    {"at the item: FE with 8", SDX_DEFAULT, BLOCK_1 TWO_ITEMS "FE 08 FC", REFUSED(6, 19)},
    {"at the item: FE with a block not there", SDX_DEFAULT, BLOCK_1 TWO_ITEMS "FE 02 FC", REFUSED(8, 19)},
    {"at the item: FD to 65,535", SDX_DEFAULT, BLOCK_1 TWO_ITEMS "FD FF FF FC", REFUSED(11, 19)},
    {"at the item: FD to a field not loaded", SDX_DEFAULT, BLOCK_1 TWO_ITEMS "FD 00 50 FC", REFUSED(12, 19)},
    {"at the item: FD to a field adjusted", SDX_DEFAULT, BLOCK_1 TWO_ITEMS "FD 00 1F FC", REFUSED(13, 19)},
    {"at the item: adding with the counter unset", SDX_DEFAULT, PLAIN_1 BLOCK_1 UPDATE_1 "05 FC", REFUSED(11, 23)},
    {"at the item: adding up to 65,535", SDX_AT(65533, 65535), EMPTY("01") "FF FF FD FF FE FF 00 00 " UPDATE_1 "FE 01 00 02 FC", REFUSED(11, 24)},
    {"at the item: adding up to a field not loaded", SDX_DEFAULT, BLOCK_1 TWO_ITEMS "01 FC", REFUSED(12, 19)},
    {"at the item: adding up to a field adjusted", SDX_DEFAULT, BLOCK_1 TWO_ITEMS "00 FC", REFUSED(13, 19)},
    {"at the item: FF with the counter unset", SDX_DEFAULT, PLAIN_1 BLOCK_1 UPDATE_1 "FF FC", REFUSED(11, 23)},
    {"at the item: a second FF up to 65,536", SDX_AT(65036, 65535), EMPTY("01") UPDATE_1 "FE 01 FF FF FC", REFUSED(11, 16)},
    {"at the item: forty others before it", SDX_DEFAULT, "FE FF 01 00 00 10 50 00 00*80 " UPDATE_1 "FE 01 00 02*39 00 FC", REFUSED(13, 135)},
    {"at the item, by a name: FE with 8", SDX_DEFAULT, BLOCK_1 TWO_NAMED "FE 08 FC", REFUSED(6, 26), GRAPHICS_KNOWN},
    {"at the item, by a name: FE with a block not there", SDX_DEFAULT, BLOCK_1 TWO_NAMED "FE 02 FC", REFUSED(8, 26), GRAPHICS_KNOWN},
    {"at the item, by a name: FD to 65,535", SDX_DEFAULT, BLOCK_1 TWO_NAMED "FD FF FF FC", REFUSED(11, 26), GRAPHICS_KNOWN},
    {"at the item, by a name: FD to a field not loaded", SDX_DEFAULT, BLOCK_1 TWO_NAMED "FD 00 50 FC", REFUSED(12, 26), GRAPHICS_KNOWN},
    {"at the item, by a name: FD to a field adjusted", SDX_DEFAULT, BLOCK_1 TWO_NAMED "FD 00 1F FC", REFUSED(13, 26), GRAPHICS_KNOWN},
    {"at the item, by a name: the counter unset", SDX_DEFAULT, BLOCK_1 NAMED "05 FC", REFUSED(11, 23), GRAPHICS_KNOWN},
    {"at the item, by a name: FF with the counter unset", SDX_DEFAULT, BLOCK_1 NAMED "FF FC", REFUSED(11, 23), GRAPHICS_KNOWN},
    {"at the item, by a name: adding up to a field not loaded", SDX_DEFAULT, BLOCK_1 TWO_NAMED "01 FC", REFUSED(12, 26), GRAPHICS_KNOWN},
    {"at the item, by a name: adding up to a field adjusted", SDX_DEFAULT, BLOCK_1 TWO_NAMED "00 FC", REFUSED(13, 26), GRAPHICS_KNOWN},
};

/* A block of each kind, cut behind each of its bytes; the blocks before it are whole. */
static void cut_blocks(struct driver *driver)
{
    static const struct directed whole = {
        "a block of each kind", SDX_DEFAULT,
        "FF FF 00 40 01 40 11 22 " "00 50 01 50 33 44 " BLOCK_1 "FE FF 02 80 00 20 05 00 " UPDATE_1 "FE 01 FF FD 01 1F FC "
        "FC FF 01 00 10 53 59 4D 42 4F 4C 20 41 " "FB FF 53 59 4D 42 4F 4C 20 41 00 00 FE 01 FF FD 00 40 FC",
        SDX_LOADED(7, 2, 1, 7944),
    };
    static const size_t lengths[] = {8, 6, 11, 8, 12, 13, 19};
    run_directed(driver, &whole);
    size_t begin = 0;
    for (size_t i = 0; i < sizeof lengths / sizeof lengths[0]; begin += lengths[i++])
        for (size_t length = 1; length < lengths[i]; length++)
            run_cut(driver, &whole, begin + length);
}

void cases_sdx(struct driver *driver)
{
    for (size_t i = 0; i < sizeof cases / sizeof cases[0]; i++)
        run_directed(driver, &cases[i]);
    cut_blocks(driver);
}
