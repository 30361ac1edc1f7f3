/* Tekoweapa: loads SpartaDOS X (SDX) programs and ACX handlers into a lent memory, and moves handlers while they live, by their file or by a
 * small index built from it. Runs nothing.
 *
 * Every function takes whatever comes and ends with a number: 0 for an acceptance, else the first fault (enum tkw_number). A buffer is a
 * pointer and its length in bytes. A length may be wrong, and the call is then refused with 1, but the pointer must be good for that many
 * bytes; an empty buffer may be NULL. No alignment is asked for. No two buffers of one call may overlap: nothing checks that, and every
 * promise rests on it. Nothing is kept between calls, and what map, scratch, the room for an index and the new-name
 * buffers held before decides nothing.
 *
 * What a call leaves:
 *   accepted     memory, map, the room for an index and the new-name buffers as the file or the index says, every other byte of memory as
 *                before; the scratch all zero
 *   refused, 1   every buffer but the answer as before
 *   refused, 2+  memory, the room for an index and the new-name buffers as before; map and scratch all zero
 * The answer is written each time, unless its own length is wrong: then it too is as before.
 *
 * The code behind these functions is proved to keep these promises, and says them in full: crates/calls.
 */
#ifndef TEKOWEAPA_H
#define TEKOWEAPA_H

#include <stddef.h>
#include <stdint.h>

/* The version of this header and of the library behind it: both change together. */
#define TKW_VERSION "1.4.0"

#ifdef __cplusplus
extern "C" {
#endif

/* The lengths, in bytes, that the lent buffers must have; and how long a file may be, and how many names may be known. */
enum {
    TKW_MEMORY_LENGTH = 65536,     /* memory, map and scratch, each */
    TKW_INDEX_LENGTH = 65536,      /* the room in which an index is built */
    TKW_NAME_LENGTH = 8,           /* a name: all eight bytes count */
    TKW_NEW_NAMES_LENGTH = 256,    /* the room for 32 new names */
    TKW_NEW_ADDRESSES_LENGTH = 64, /* the room for their addresses, two bytes each, low byte first */
    TKW_ANSWER_LENGTH = 36,        /* the answer: nine four-byte numbers, low byte first */
    TKW_FILE_MOST = 65536,         /* bytes of a file, and of an index that is given */
    TKW_KNOWN_MOST = 256           /* known names */
};

/* What a byte of the map says of its address; the last event there decides. */
enum { TKW_UNTOUCHED = 0, TKW_PLACED = 1, TKW_RESERVED = 2, TKW_ADJUSTED = 3 };

/* The nine numbers of the answer, by their place: number i stands in the bytes 4i to 4i + 3. A number that is absent is zero; a refusal has
 * only number, offset and side. */
enum tkw_answer {
    TKW_AT_NUMBER = 0,        /* 0, or the fault: what the call returns */
    TKW_AT_OFFSET = 1,        /* of a refusal: the offset of the first byte at fault; 0 for 1 to 4, 24 and 25; of a file its length for 5. By an
                               * index that of the entry at fault, which begins with its length, for 5 too; the index's length where an entry
                               * is missing, 0 where it is empty */
    TKW_AT_SIDE = 2,          /* of a refused move: 0 for the old bases, 1 for the new */
    TKW_AT_START_PRESENT = 3, /* 1 if the file names a start, else 0 */
    TKW_AT_START = 4,         /* the start address */
    TKW_AT_PLACED = 5,        /* bytes placed, overwritten ones included */
    TKW_AT_ADJUSTED = 6,      /* fields adjusted */
    TKW_AT_NEW_NAMES = 7,     /* SDX: new names */
    TKW_AT_LOW = 8            /* SDX: low afterwards; of an index that was built: how many of its bytes are used */
};

/* One of the nine numbers of an answer. */
static inline uint32_t tkw_answer_number(const uint8_t *answer, enum tkw_answer place)
{
    const uint8_t *number = answer + 4 * (size_t)place;
    return (uint32_t)number[0] | (uint32_t)number[1] << 8 | (uint32_t)number[2] << 16 | (uint32_t)number[3] << 24;
}

/* What a call returns; tkw_number_text has the meanings. */
enum tkw_number {
    TKW_ACCEPTED = 0,
    TKW_WRONG_BUFFER = 1,
    TKW_SETTING_OUT_OF_RANGE = 2,
    TKW_FILE_TOO_LONG = 3,
    TKW_WRONG_OPENING = 4,
    TKW_CUT_SHORT = 5,
    TKW_NOT_KNOWN = 6,
    TKW_BLOCK_TAKEN = 7,
    TKW_BLOCK_MISSING = 8,
    TKW_LENGTH_NOT_ALLOWED = 9,
    TKW_DOES_NOT_FIT = 10,
    TKW_COUNTER_UNUSABLE = 11,
    TKW_FIELD_NOT_LOADED = 12,
    TKW_ADJUSTED_TWICE = 13,
    TKW_NAME_UNKNOWN = 14,
    TKW_TOO_MANY_NAMES = 15,
    TKW_NAME_OUTSIDE_BLOCK = 16,
    TKW_PIECES_OVERLAP = 17,
    TKW_FIXUP_UNSUITED = 18,
    TKW_BYTES_AFTER_END = 19,
    TKW_START_TOO_HIGH = 20,
    TKW_WRONG_VERSION = 24,
    TKW_INDEX_TOO_LONG = 25
};

/* What a number means, in the words of the league's table. Never NULL: a number that no call returns has a text that says so. */
static inline const char *tkw_number_text(uint32_t number)
{
    switch (number) {
    case TKW_ACCEPTED:
        return "accepted";
    case TKW_WRONG_BUFFER:
        return "memory, map, scratch, room for an index, new-name buffers or C answer of another length; "
               "known names not eight bytes per address, or over 256";
    case TKW_SETTING_OUT_OF_RANGE:
        return "a setting outside its range";
    case TKW_FILE_TOO_LONG:
        return "file longer than 65,536";
    case TKW_WRONG_OPENING:
        return "wrong opening";
    case TKW_CUT_SHORT:
        return "cut short";
    case TKW_NOT_KNOWN:
        return "unknown type, flag, block number or memory kind";
    case TKW_BLOCK_TAKEN:
        return "block number used before, or an eighth relocatable block";
    case TKW_BLOCK_MISSING:
        return "block not there yet";
    case TKW_LENGTH_NOT_ALLOWED:
        return "end below start, or a record length not allowed";
    case TKW_DOES_NOT_FIT:
        return "doesn't fit";
    case TKW_COUNTER_UNUSABLE:
        return "place not set, or counter too high";
    case TKW_FIELD_NOT_LOADED:
        return "field not loaded";
    case TKW_ADJUSTED_TWICE:
        return "byte adjusted twice";
    case TKW_NAME_UNKNOWN:
        return "name unknown";
    case TKW_TOO_MANY_NAMES:
        return "a 33rd new name";
    case TKW_NAME_OUTSIDE_BLOCK:
        return "new name outside its block";
    case TKW_PIECES_OVERLAP:
        return "two ACX pieces share an address";
    case TKW_FIXUP_UNSUITED:
        return "fixup kind doesn't suit the code before it";
    case TKW_BYTES_AFTER_END:
        return "bytes after the end record";
    case TKW_START_TOO_HIGH:
        return "start above 65,535";
    case TKW_WRONG_VERSION:
        return "another version of the index";
    case TKW_INDEX_TOO_LONG:
        return "the index doesn't fit";
    default:
        return "a number that no call returns";
    }
}

/* The forms of an ACX file. */
enum { TKW_DISK = 0, TKW_DEVICE = 1 };

/* The settings of the short calls. */
enum { TKW_DEFAULT_LOW = 7936, TKW_DEFAULT_HIGH = 39936, TKW_DEFAULT_MAIN_BASE = 9216, TKW_DEFAULT_ZERO_BASE = 128 };

/* Loads an SDX file. Relocatable blocks go to low and upwards, up to high (low <= high <= 65535). The known names are known_names_length /
 * 8 names of eight bytes, with as many addresses beside them, two bytes each, low byte first (an odd length is refused with 1). The file's
 * own names come before the known ones, and of equal names the newest holds. New names and their addresses stand in their buffers in file
 * order, and the rest of the buffers is zero. */
uint32_t tkw_sdx_load(const uint8_t *file, size_t file_length, uint32_t low, uint32_t high,
                      const uint8_t *known_names, size_t known_names_length,
                      const uint8_t *known_addresses, size_t known_addresses_length,
                      uint8_t *memory, size_t memory_length, uint8_t *map, size_t map_length,
                      uint8_t *new_names, size_t new_names_length, uint8_t *new_addresses, size_t new_addresses_length,
                      uint8_t *answer, size_t answer_length);

/* The same with the default low and high. */
uint32_t tkw_sdx_load_default(const uint8_t *file, size_t file_length,
                              const uint8_t *known_names, size_t known_names_length,
                              const uint8_t *known_addresses, size_t known_addresses_length,
                              uint8_t *memory, size_t memory_length, uint8_t *map, size_t map_length,
                              uint8_t *new_names, size_t new_names_length, uint8_t *new_addresses, size_t new_addresses_length,
                              uint8_t *answer, size_t answer_length);

/* Loads an ACX file in disk form (0) or device form (1) at a main base of 0 to 65535 and a zero-page base of 0 to 255. */
uint32_t tkw_acx_load(uint32_t form, const uint8_t *file, size_t file_length, uint32_t main_base, uint32_t zero_base,
                      uint8_t *memory, size_t memory_length, uint8_t *map, size_t map_length,
                      uint8_t *answer, size_t answer_length);

/* The same at the default bases. */
uint32_t tkw_acx_load_default(uint32_t form, const uint8_t *file, size_t file_length,
                              uint8_t *memory, size_t memory_length, uint8_t *map, size_t map_length,
                              uint8_t *answer, size_t answer_length);

/* Moves an ACX handler that lives in memory at the old bases to the new ones: its bytes as they are now, its address fields adjusted from
 * their current contents. A piece at a fixed address stays, and its fields are adjusted there. Refused as a load at the old bases would be
 * (side 0), then as one at the new (side 1). Answer and map are those of a load at the new bases. */
uint32_t tkw_acx_move(uint32_t form, const uint8_t *file, size_t file_length, uint32_t old_main, uint32_t old_zero,
                      uint32_t new_main, uint32_t new_zero,
                      uint8_t *memory, size_t memory_length, uint8_t *map, size_t map_length,
                      uint8_t *scratch, size_t scratch_length, uint8_t *answer, size_t answer_length);

/* Builds the fixup index of an ACX file, by which its handler can be moved without the file. Refused as a load of the file at these bases
 * would be, then with 25 where the index would not fit in its room. Answer and map are those of the load, and low is the number of bytes used
 * from the front of the room, of which the rest is zero. The index is the same at all bases at which the file is accepted. */
uint32_t tkw_index_build(uint32_t form, const uint8_t *file, size_t file_length, uint32_t main_base, uint32_t zero_base,
                         uint8_t *map, size_t map_length, uint8_t *index, size_t index_length, uint8_t *answer, size_t answer_length);

/* Moves a handler by its index in place of its file. Give just the bytes that were used (TKW_AT_LOW of the builder's answer); bytes after the
 * end entry are refused with 19. By an index that tkw_index_build built it leaves what tkw_acx_move leaves by that file, and gives the same answer
 * (low is 0) but for the offset of a refusal. Any other index is itself the handler: places, fields and amounts are those of its entries. Refused
 * at the old bases (side 0), then at the new (side 1): 5 for an empty index, 24 for a first byte other than 1, then entry after entry. */
uint32_t tkw_index_move(const uint8_t *index, size_t index_length, uint32_t old_main, uint32_t old_zero,
                        uint32_t new_main, uint32_t new_zero,
                        uint8_t *memory, size_t memory_length, uint8_t *map, size_t map_length,
                        uint8_t *scratch, size_t scratch_length, uint8_t *answer, size_t answer_length);

#ifdef __cplusplus
}
#endif

#endif
