/* Directed cases for the ACX loader: P1, P3, P4, P9 and P10 of document 01's table, each check of "ACX records, checks in order", the bounds,
 * and the places that document 02's wish 6 gives to refusals. */
#include "directed.h"

#include <stdio.h>
#include <string.h>

#define CODE_3 "00 05 00 00 4C 03 00 "
#define P1 CODE_3 "06 01 01 0B 02 00 00"
#define P3 "00 04 00 00 A2 00 08 02 01 F0 0B 00 00 00"
#define END "0B 00 00 00"
/* A jump vector in page 2. */
#define VECTOR "01 04 00 02 00 00 06 01 00 "
/* Records of each kind, for wish 6. */
#define RECORDS CODE_3 "06 01 01 0A 04 00 00 11 22 09 02 01 F0 01 03 00 02 33 04 01 00 " END

static const struct directed cases[] = {
    {"P1", ACX_AT(1, 8192, 128), P1, STARTED(8192, 3, 1), "2000: 4C 03 20", "1FFF: 00 01 03 03 00"},
    {"P3", ACX_AT(1, 8192, 128), P3, LOADED(2, 1), "2000: A2 20", "1FFF: 00 01 03 00"},
    {"P4", ACX_AT(1, 8208, 128), P3, LOADED(2, 1), "2010: A2 21", "200F: 00 01 03 00"},
    {"P9", ACX_AT(1, 8192, 128), CODE_3 "06 01 02 0B 02 00 00", REFUSED(12, 9)},
    {"P10", ACX_AT(1, 8192, 128), CODE_3 "06 02 01 01 0B 02 00 00", REFUSED(13, 10)},

    {"P1's file at the default bases", DEVICE_DEFAULT, P1, STARTED(9216, 3, 1), "2400: 4C 03 24", "23FF: 00 01 03 03 00"},
    {"P1's file at the default bases, disk form", DISK_DEFAULT, "F0 FF " P1, STARTED(9216, 3, 1), "2400: 4C 03 24"},
    {"P3's file at the default bases", DEVICE_DEFAULT, P3, LOADED(2, 1), "2400: A2 24", "23FF: 00 01 03 00"},
    {"main at the default base up to 65,536", DEVICE_DEFAULT, "00 04 FE DB 77 78 " END, LOADED(2, 0), "FFFE: 77 78"},
    {"main at the default base up to 65,537", DEVICE_DEFAULT, "00 04 FF DB 77 78 " END, REFUSED(10, 2)},
    {"start at 65,535 by the default base", DEVICE_DEFAULT, CODE_3 "0B 02 FF DB", STARTED(65535, 3, 0)},
    {"start at 65,536 by the default base", DEVICE_DEFAULT, CODE_3 "0B 02 00 DC", REFUSED(20, 9)},
    {"absolute code beside the default base", DEVICE_DEFAULT, CODE_3 "01 03 FF 23 77 " END, LOADED(4, 0), "23FF: 77 4C 03 00"},
    {"absolute code over the default base", DEVICE_DEFAULT, CODE_3 "01 03 00 24 77 " END, REFUSED(17, 9)},

    {"form 2", ACX_AT(2, 8192, 128), P1, REFUSED(2, 0)},
    {"form 256", ACX_AT(256, 8192, 128), P1, REFUSED(2, 0)},
    {"form of 32 bits", ACX_AT(4294967295u, 8192, 128), P1, REFUSED(2, 0)},
    {"main base 65,536", ACX_AT(1, 65536, 128), P1, REFUSED(2, 0)},
    {"main base default but for its upper half", ACX_AT(1, 65536 + 9216, 128), P1, REFUSED(2, 0)},
    {"zero-page base 256", ACX_AT(1, 8192, 256), P1, REFUSED(2, 0)},
    {"zero-page base of 32 bits", ACX_AT(1, 8192, 4294967168u), P1, REFUSED(2, 0)},
    {"2 before 3", ACX_AT(2, 8192, 128), "00*65537", REFUSED(2, 0)},
    {"a file of 65,536 bytes", DEVICE_DEFAULT, "00 02 00 00 (08 00)*32764 " END, LOADED(0, 0)},
    {"a file of 65,537 bytes", DEVICE_DEFAULT, "00 02 00 00 (08 00)*32764 " END " 00", REFUSED(3, 0)},

    {"disk form", ACX_AT(0, 8192, 128), "F0 FF " P1, STARTED(8192, 3, 1), "2000: 4C 03 20"},
    {"disk form, no byte", DISK_DEFAULT, "", REFUSED(5, 0)},
    {"disk form, one byte", DISK_DEFAULT, "F0", REFUSED(5, 1)},
    {"disk form, one wrong byte", DISK_DEFAULT, "00", REFUSED(5, 1)},
    {"disk form, first byte wrong", DISK_DEFAULT, "F1 FF " P1, REFUSED(4, 0)},
    {"disk form, second byte wrong", DISK_DEFAULT, "F0 FE " P1, REFUSED(4, 0)},
    {"disk form, nothing after the opening", DISK_DEFAULT, "F0 FF", REFUSED(5, 2)},
    {"disk file in device form", DEVICE_DEFAULT, "F0 FF " P1, REFUSED(6, 0)},
    {"device form, no byte", DEVICE_DEFAULT, "", REFUSED(5, 0)},
    {"no end record", DEVICE_DEFAULT, CODE_3, REFUSED(5, 7)},
    {"type 0C", DEVICE_DEFAULT, CODE_3 "0C 00", REFUSED(6, 7)},
    {"offsets count the opening", DISK_DEFAULT, "F0 FF " CODE_3 "0C 00", REFUSED(6, 9)},

    {"code without length", DEVICE_DEFAULT, CODE_3 "00", REFUSED(5, 8)},
    {"code length 0", DEVICE_DEFAULT, "00 00 " END, REFUSED(9, 1)},
    {"code length 1", DEVICE_DEFAULT, "01 01 00 " END, REFUSED(9, 1)},
    {"code length 2", DEVICE_DEFAULT, "0A 02 00 00 " END, LOADED(0, 0), NULL, "0000: 00*65536"},
    {"code length 255", ACX_AT(1, 8192, 128), "00 FF 00 00 33*253 " END, LOADED(253, 0), "2000: 33*253", "1FFF: 00 01*253 00"},
    {"code bytes missing", DEVICE_DEFAULT, "00 05 00 00 4C 03", REFUSED(5, 6)},
    {"9 before missing bytes", DEVICE_DEFAULT, "00 01", REFUSED(9, 1)},
    {"5 before 10", DEVICE_DEFAULT, "00 05 FF FF 4C 03", REFUSED(5, 6)},

    {"zero page, place + n at 256", ACX_AT(1, 8192, 255), "0A 03 00 00 77 " END, LOADED(1, 0), "00FF: 77", "00FE: 00 01 00"},
    {"zero page, place + n at 257", ACX_AT(1, 8192, 255), "0A 04 00 00 77 78 " END, REFUSED(10, 2)},
    {"zero page at the default base up to 256", DEVICE_DEFAULT, "0A 82 00 00 77*128 " END, LOADED(128, 0), "0080: 77*128", "007F: 00 01*128 00"},
    {"zero page at the default base up to 257", DEVICE_DEFAULT, "0A 83 00 00 77*129 " END, REFUSED(10, 2)},
    {"zero page, no code at 256", ACX_AT(1, 8192, 255), "0A 02 01 00 " END, LOADED(0, 0)},
    {"zero page, no code at 257", ACX_AT(1, 8192, 255), "0A 02 02 00 " END, REFUSED(10, 2)},
    {"main, place + n at 65,536", ACX_AT(1, 65535, 128), "00 03 00 00 77 " END, LOADED(1, 0), "FFFF: 77", "FFFE: 00 01"},
    {"main, place + n at 65,537", ACX_AT(1, 65535, 128), "00 04 00 00 77 78 " END, REFUSED(10, 2)},
    {"main at base 8,192 up to 65,536", ACX_AT(1, 8192, 128), "00 04 FE DF 77 78 " END, LOADED(2, 0), "FFFE: 77 78"},
    {"main at base 8,192 up to 65,537", ACX_AT(1, 8192, 128), "00 04 FF DF 77 78 " END, REFUSED(10, 2)},
    {"main, no code at 65,536", ACX_AT(1, 65535, 128), "00 02 01 00 " END, LOADED(0, 0)},
    {"main, no code at 65,537", ACX_AT(1, 65535, 128), "00 02 02 00 " END, REFUSED(10, 2)},
    {"a place does not wrap", ACX_AT(1, 65535, 128), "00 03 01 00 77 " END, REFUSED(10, 2)},
    {"the highest place of all", ACX_AT(1, 65535, 128), "00 FF FF FF 77*253 " END, REFUSED(10, 2)},
    {"absolute, place + n at 65,536", DEVICE_DEFAULT, "01 03 FF FF 77 " END, LOADED(1, 0), "FFFF: 77"},
    {"absolute, place + n at 65,537", DEVICE_DEFAULT, "01 04 FF FF 77 78 " END, REFUSED(10, 2)},

    {"main over main", DEVICE_DEFAULT, CODE_3 "00 03 02 00 77 " END, REFUSED(17, 9)},
    {"main beside main", ACX_AT(1, 8192, 128), CODE_3 "00 03 03 00 77 " END, LOADED(4, 0), "2000: 4C 03 00 77"},
    {"main up to main", ACX_AT(1, 8192, 128), "00 03 02 00 77 00 04 00 00 4C 03 " END, LOADED(3, 0), "2000: 4C 03 77"},
    {"absolute over main", ACX_AT(1, 8192, 128), CODE_3 "01 03 02 20 77 " END, REFUSED(17, 9)},
    {"absolute over zero page", DEVICE_DEFAULT, "0A 03 00 00 77 01 03 80 00 77 " END, REFUSED(17, 7)},
    {"main over zero page", ACX_AT(1, 0, 128), "0A 03 00 00 77 00 03 80 00 77 " END, REFUSED(17, 7)},
    {"10 before 17", ACX_AT(1, 65535, 128), "00 03 00 00 77 00 04 00 00 77 78 " END, REFUSED(10, 7)},
    {"no code inside a piece", DEVICE_DEFAULT, CODE_3 "00 02 01 00 " END, LOADED(3, 0)},

    {"fixup before any code", DEVICE_DEFAULT, "06 01 00 " END, REFUSED(18, 0)},
    {"fixup without length before any code", DEVICE_DEFAULT, "06", REFUSED(5, 1)},
    {"18 before 9", DEVICE_DEFAULT, CODE_3 "03 00 " END, REFUSED(18, 7)},
    {"18 before missing bytes", DEVICE_DEFAULT, CODE_3 "03 05", REFUSED(18, 7)},
    {"9 before missing bytes of a fixup", DEVICE_DEFAULT, CODE_3 "02 FE", REFUSED(9, 8)},
    {"fixup without length", DEVICE_DEFAULT, CODE_3 "06", REFUSED(5, 8)},
    {"fixup bytes missing", DEVICE_DEFAULT, CODE_3 "02 02 00", REFUSED(5, 10)},
    {"missing bytes before 12", DEVICE_DEFAULT, CODE_3 "02 02 09", REFUSED(5, 10)},
    {"fixups of the code record before, not of an older one", DEVICE_DEFAULT, CODE_3 "00 03 03 00 77 02 01 01 " END, REFUSED(12, 14)},
    {"fixups of a record without code", DEVICE_DEFAULT, CODE_3 "00 02 03 00 02 01 00 " END, REFUSED(12, 13)},
    {"high bytes of a record without code", DEVICE_DEFAULT, CODE_3 "00 02 03 00 08 00 " END, LOADED(3, 0)},
    {"a byte at the last index", ACX_AT(1, 8192, 128), CODE_3 "02 01 02 " END, LOADED(3, 1), "2000: 4C 03 00", "2000: 01 01 03 00"},
    {"a byte behind the last index", DEVICE_DEFAULT, CODE_3 "02 01 03 " END, REFUSED(12, 9)},
    {"a byte of a word adjusted", DEVICE_DEFAULT, CODE_3 "06 01 01 02 01 02 " END, REFUSED(13, 12)},
    {"a word over a byte adjusted", DEVICE_DEFAULT, CODE_3 "02 01 01 06 01 00 " END, REFUSED(13, 12)},
    {"12 before 13, item by item", DEVICE_DEFAULT, CODE_3 "02 03 01 01 09 " END, REFUSED(13, 10)},
    {"adjusted by two records", ACX_AT(1, 8192, 128), CODE_3 "02 01 00 06 01 01 " END, LOADED(3, 2), "2000: 4C 03 20", "2000: 03 03 03 00"},

    {"low byte", ACX_AT(1, 0x20F1, 128), "00 04 00 00 11 22 02 01 01 " END, LOADED(2, 1), "20F1: 11 13"},
    {"zero-page byte in main code", ACX_AT(1, 8192, 0xF0), "00 04 00 00 11 22 04 01 01 " END, LOADED(2, 1), "2000: 11 12"},
    {"word past 65,535", ACX_AT(1, 0xF000, 128), "00 04 00 00 22 33 06 01 00 " END, LOADED(2, 1), "F000: 22 23"},
    {"high byte with a carry", ACX_AT(1, 0x20F0, 128), "00 04 00 00 A2 E0 08 02 01 10 " END, LOADED(2, 1), "20F0: A2 01"},
    {"high byte without a carry", ACX_AT(1, 0x20F0, 128), "00 04 00 00 A2 E0 08 02 01 0F " END, LOADED(2, 1), "20F0: A2 00"},
    {"high byte at the highest base", ACX_AT(1, 65535, 128), "00 03 00 00 A2 08 02 00 FF " END, LOADED(1, 1), "FFFF: A2"},
    {"the fixups of zero page", ACX_AT(1, 0x1234, 0x40), "0A 07 02 00 01 02 03 04 05 03 01 00 05 01 01 07 01 02 09 02 04 CC " END, LOADED(5, 4), "0042: 35 42 37 16 18", "0041: 00 03 03 03 03 03 00"},

    {"a vector in page 2", ACX_AT(1, 8192, 128), VECTOR END, LOADED(2, 1), "0200: 00 20", "01FF: 00 03 03 00"},
    {"a vector in page 2, listed by 07", ACX_AT(1, 8192, 128), "01 04 00 02 00 00 07 01 00 " END, REFUSED(18, 6)},
    {"a vector that points into the code", ACX_AT(1, 8192, 128), CODE_3 "01 04 00 02 02 00 06 01 00 0B 02 00 00", STARTED(8192, 5, 1), "2000: 4C 03 00; 0200: 02 20"},
    {"the fixups of absolute code", ACX_AT(1, 0x1234, 0x40), "01 07 02 02 01 02 03 04 05 02 01 00 04 01 01 06 01 02 08 02 04 CC " END, LOADED(5, 4), "0202: 35 42 37 16 18", "0201: 00 03 03 03 03 03 00"},
    {"absolute code in page 0 goes by its type, 04", ACX_AT(1, 8192, 128), "01 03 80 00 77 04 01 00 " END, LOADED(1, 1), "0080: F7"},
    {"absolute code in page 0 goes by its type, 05", ACX_AT(1, 8192, 128), "01 03 80 00 77 05 01 00 " END, REFUSED(18, 5)},
    {"a vector at 65,534", ACX_AT(1, 8192, 128), "01 04 FE FF 00 00 06 01 00 " END, LOADED(2, 1), "FFFE: 00 20", "FFFD: 00 03 03"},
    {"a vector at 65,535", ACX_AT(1, 8192, 128), "01 03 FF FF 77 06 01 00 " END, REFUSED(12, 7)},
    {"two pieces over one vector", ACX_AT(1, 8192, 128), VECTOR "01 04 01 02 00 00 06 01 00 " END, REFUSED(17, 11)},
    {"a vector listed twice", ACX_AT(1, 8192, 128), VECTOR "02 01 01 " END, REFUSED(13, 11)},
    {"fixups of the absolute code before, not of older code", DEVICE_DEFAULT, CODE_3 "01 03 00 02 77 02 01 01 " END, REFUSED(12, 14)},
    {"fixups of an absolute record without code", DEVICE_DEFAULT, CODE_3 "01 02 00 02 02 01 00 " END, REFUSED(12, 13)},

    {"start absolute", DEVICE_DEFAULT, CODE_3 "0B 01 FF FF", STARTED(65535, 3, 0)},
    {"no start, whatever its address", ACX_AT(1, 65533, 128), CODE_3 "0B 00 FF FF", LOADED(3, 0)},
    {"start at 65,535", ACX_AT(1, 8192, 128), CODE_3 "0B 02 FF DF", STARTED(65535, 3, 0)},
    {"start at 65,536", ACX_AT(1, 8192, 128), CODE_3 "0B 02 00 E0", REFUSED(20, 9)},
    {"start 0 is a start", DEVICE_DEFAULT, "0B 01 00 00", STARTED(0, 0, 0)},
    {"flag 3", DEVICE_DEFAULT, CODE_3 "0B 03 00 00", REFUSED(6, 8)},
    {"end record cut", DEVICE_DEFAULT, CODE_3 "0B 03 00", REFUSED(5, 10)},
    {"a byte after the end record", DEVICE_DEFAULT, CODE_3 END " 00", REFUSED(19, 11)},
    {"20 before 19", DEVICE_DEFAULT, CODE_3 "0B 02 00 E0 00", REFUSED(20, 9)},
    {"6 before 19", DEVICE_DEFAULT, CODE_3 "0B 03 00 00 00", REFUSED(6, 8)},
    {"only an end record", DEVICE_DEFAULT, END, LOADED(0, 0), NULL, "0000: 00*65536"},
};

/* Document 02, wish 6: "A refusal's offset should be that of the first byte of the field or item at fault". */
static const struct directed places[] = {
    {"at the type", DEVICE_DEFAULT, CODE_3 "0C 00", REFUSED(6, 7)},
    {"at the type, after fixups", DEVICE_DEFAULT, CODE_3 "06 01 01 FF 00", REFUSED(6, 10)},
    {"at the length of code", DEVICE_DEFAULT, CODE_3 "00 01 00 " END, REFUSED(9, 8)},
    {"at the length of code in zero page", DEVICE_DEFAULT, CODE_3 "0A 00 " END, REFUSED(9, 8)},
    {"at the address: past 65,536", DEVICE_DEFAULT, CODE_3 "00 04 FF DB 77 78 " END, REFUSED(10, 9)},
    {"at the address: zero page past 256", DEVICE_DEFAULT, CODE_3 "0A 03 80 00 77 " END, REFUSED(10, 9)},
    {"at the address: absolute past 65,536", DEVICE_DEFAULT, CODE_3 "01 04 FF FF 77 78 " END, REFUSED(10, 9)},
    {"at the address: shared by its code", DEVICE_DEFAULT, CODE_3 "00 03 02 00 77 " END, REFUSED(17, 9)},
    {"at the address: shared by its last code byte", DEVICE_DEFAULT, CODE_3 "01 05 FE 23 77 78 79 " END, REFUSED(17, 9)},

    {"at the type: unsuited", DEVICE_DEFAULT, CODE_3 "03 01 00 " END, REFUSED(18, 7)},
    {"at the type: unsuited, after other fixups", DEVICE_DEFAULT, CODE_3 "02 01 00 05 01 01 " END, REFUSED(18, 10)},
    {"at the type: before any code", DEVICE_DEFAULT, "06 01 00 " END, REFUSED(18, 0)},
    {"at the length: no item", DEVICE_DEFAULT, CODE_3 "02 00 " END, REFUSED(9, 8)},
    {"at the length: no item in a second list", DEVICE_DEFAULT, CODE_3 "02 01 00 04 00 " END, REFUSED(9, 11)},
    {"at the length: half a pair", DEVICE_DEFAULT, CODE_3 "08 03 00 F0 01 " END, REFUSED(9, 8)},
    {"at the item: a third byte outside", DEVICE_DEFAULT, CODE_3 "02 03 00 01 03 " END, REFUSED(12, 11)},
    {"at the item: a second word half outside", DEVICE_DEFAULT, CODE_3 "06 02 00 02 " END, REFUSED(12, 10)},
    {"at the item: a second pair outside", DEVICE_DEFAULT, CODE_3 "08 04 00 F0 03 F0 " END, REFUSED(12, 11)},
    {"at the item: a third pair outside, zero page", DEVICE_DEFAULT, "0A 05 00 00 4C 03 00 09 06 00 F0 01 F0 03 F0 " END, REFUSED(12, 13)},
    {"at the item: a second byte outside, absolute", DEVICE_DEFAULT, "01 05 00 02 4C 03 00 04 02 00 03 " END, REFUSED(12, 10)},
    {"at the item: a third byte listed before", DEVICE_DEFAULT, CODE_3 "04 03 00 02 00 " END, REFUSED(13, 11)},
    {"at the item: a third word half listed before", DEVICE_DEFAULT, "00 08 00 00 01 02 03 04 05 06 06 03 00 02 03 " END, REFUSED(13, 14)},
    {"at the item: a second pair listed before", DEVICE_DEFAULT, CODE_3 "08 04 01 F0 01 F0 " END, REFUSED(13, 11)},
    {"at the item: a third pair listed before, zero page", DEVICE_DEFAULT, "0A 05 00 00 4C 03 00 09 06 00 10 02 20 02 30 " END, REFUSED(13, 13)},
    {"at the item: a second byte of a second list", DEVICE_DEFAULT, CODE_3 "06 01 01 02 02 00 02 " END, REFUSED(13, 13)},
    {"at the item: a second byte of a second list, absolute", DEVICE_DEFAULT, "01 05 00 02 4C 03 00 06 01 00 02 02 02 01 " END, REFUSED(13, 13)},
    {"at the item: forty others before it", DEVICE_DEFAULT, "00 2A 00 00 5A*40 02 29 00 01 02 03 04 05 06 07 08 09 0A 0B 0C 0D 0E 0F 10 11 12 13 14 15 16 17 18 19 1A 1B 1C 1D 1E 1F 20 21 22 23 24 25 26 27 27 " END, REFUSED(13, 86)},

    {"at the flag", DEVICE_DEFAULT, CODE_3 "0B 03 00 00", REFUSED(6, 8)},
    {"at the flag, after fixups", DEVICE_DEFAULT, CODE_3 "06 01 01 0B FF 00 00", REFUSED(6, 11)},
    {"at the start", DEVICE_DEFAULT, CODE_3 "0B 02 00 DC", REFUSED(20, 9)},
    {"at the start, after fixups", DEVICE_DEFAULT, CODE_3 "06 01 01 0B 02 00 DC", REFUSED(20, 12)},
    {"at the first byte too many: it is the last", DEVICE_DEFAULT, CODE_3 END " 00", REFUSED(19, 11)},
    {"at the first byte too many: an end record", DEVICE_DEFAULT, CODE_3 END " " END, REFUSED(19, 11)},
};

/* The case, in disk form too, and so as a move from its bases: what the load at the old ones says of it, side 0. */
static void run_place(struct driver *driver, const struct directed *device)
{
    char name[80], file[512];
    run_directed(driver, device);
    struct directed disk = *device;
    disk.name = name;
    disk.file = file;
    snprintf(name, sizeof name, "%s, disk form", device->name);
    snprintf(file, sizeof file, "F0 FF %s", device->file);
    disk.settings[FORM] = 0;
    disk.answer[AT_OFFSET] += 2;
    run_directed(driver, &disk);
    snprintf(name, sizeof name, "%s, moved", device->name);
    disk.call = ACX_MOVE;
    disk.settings[NEW_MAIN] = 12416;
    disk.settings[NEW_ZERO] = 96;
    run_directed(driver, &disk);
}

/* Records of each kind, cut behind each of their bytes. */
static void cut_records(struct driver *driver)
{
    static const struct directed wholes[] = {
        {"records", DEVICE_DEFAULT, RECORDS, LOADED(6, 3)},
        {"records in disk form", DISK_DEFAULT, "F0 FF " RECORDS, LOADED(6, 3)},
        {"records moved", MOVE(0, 9216, 128, 12416, 96), "F0 FF " RECORDS, LOADED(6, 3)},
    };
    for (size_t i = 0; i < sizeof wholes / sizeof wholes[0]; i++) {
        run_directed(driver, &wholes[i]);
        for (size_t length = 0; 3 * length < strlen(wholes[i].file); length++)
            run_cut(driver, &wholes[i], length);
    }
}

/* Every fixup kind after every code kind, and before any: two bytes, one word, or one index with its LSB. */
static void fixups_after_codes(struct driver *driver)
{
    static const char *const codes[] = {"00", "0A", "01", "no"};
    for (uint32_t type = 2; type <= 9; type++)
        for (int code = 0; code < 4; code++) {
            bool suits = code == 1 ? type % 2 == 1 : code < 3 && type % 2 == 0;
            bool word = type == 6 || type == 7;
            char name[64], file[96], record[48] = "";
            if (code < 3)
                snprintf(record, sizeof record, "%s 05 00 00 10 20 30", codes[code]);
            snprintf(file, sizeof file, "%s %02X %s " END, record, type, word ? "01 00" : "02 00 02");
            snprintf(name, sizeof name, "fixup %02X after %s code", type, codes[code]);
            struct directed yes = {name, DEVICE_DEFAULT, file, LOADED(3, type < 6 ? 2 : 1)};
            struct directed no = {name, DEVICE_DEFAULT, file, REFUSED(18, code < 3 ? 7 : 0)};
            run_directed(driver, suits ? &yes : &no);
        }
}

/* A fixup record of this length after code of this type, with all the bytes there. Bytes are listed at 0, 1, 2 and so on, words at 0, 2, 4
 * and so on, of 253 code bytes: of 127 words the last lies half outside. */
static void fixup_length(struct driver *driver, const char *code, uint32_t type, uint32_t length)
{
    bool word = type == 6 || type == 7, pairs = type == 8 || type == 9;
    bool allowed = pairs ? length % 2 == 0 && length <= 254 : length >= 1 && length <= 253;
    uint32_t number = !allowed ? 9 : word && length == 253 ? 12 : 0;
    char name[64], file[2048];
    snprintf(name, sizeof name, "fixup %02X of length %u after %s code", type, length, code);
    int at = snprintf(file, sizeof file, "%s FF 00 00 5A*253 %02X %02X ", code, type, length);
    for (uint32_t j = 0; j < length; j++)
        at += snprintf(file + at, sizeof file - (size_t)at, "%02X ", (word ? 2 * j : pairs ? j / 2 : j) % 256);
    snprintf(file + at, sizeof file - (size_t)at, END);
    struct directed yes = {name, ACX_AT(1, 8192, 3), file, LOADED(253, pairs ? length / 2 : length)};
    /* 9 is at the length; 12 at the last item, number 126, behind the 257 bytes of code, the type and the length. */
    struct directed no = {name, ACX_AT(1, 8192, 3), file, REFUSED(number, number == 9 ? 258 : 259 + 126)};
    run_directed(driver, number == 0 ? &yes : &no);
}

/* Lengths 0, 1, 2, 253, 254 and 255 of every fixup kind, after all code that it suits. */
static void fixup_lengths(struct driver *driver)
{
    static const uint32_t lengths[] = {0, 1, 2, 253, 254, 255};
    for (uint32_t type = 2; type <= 9; type++)
        for (size_t i = 0; i < sizeof lengths / sizeof lengths[0]; i++) {
            fixup_length(driver, type % 2 == 0 ? "00" : "0A", type, lengths[i]);
            if (type % 2 == 0)
                fixup_length(driver, "01", type, lengths[i]);
        }
}

void cases_acx(struct driver *driver)
{
    for (size_t i = 0; i < sizeof cases / sizeof cases[0]; i++)
        run_directed(driver, &cases[i]);
    for (size_t i = 0; i < sizeof places / sizeof places[0]; i++)
        run_place(driver, &places[i]);
    cut_records(driver);
    fixups_after_codes(driver);
    fixup_lengths(driver);
}
