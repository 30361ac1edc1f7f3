#include "index.h"
#include "tekoweapa.h"

enum { VERSION = 1 };

/* An entry by its bytes: its length in two, high byte first, which counts what follows; its type, and an address in two. A code entry
 * then has the length of its code, and three bytes for each fixup; the end entry has a flag before the address. */
enum { TYPE = 2, END_FLAG = 3, CODE_LENGTH = 5, FIXUPS = 6, FIXUP = 3, END_LENGTH = 6 };

enum { CODE_MOST = 253, FIRST_KIND = 0x02, LAST_KIND = 0x09, FLAG_MOST = 2 };

/* The length of the entry at the front, with the two bytes that say it; 0 if it is cut or has no type. */
static size_t entry_length(const uint8_t *entry, size_t left)
{
    if (left <= TYPE)
        return 0;
    size_t length = TYPE + ((size_t)entry[0] << 8 | entry[1]);
    return length > TYPE && length <= left ? length : 0;
}

static bool is_code_entry(const uint8_t *entry, size_t length)
{
    if (length < FIXUPS || (length - FIXUPS) % FIXUP != 0 || entry[CODE_LENGTH] > CODE_MOST)
        return false;
    for (size_t at = FIXUPS; at < length; at += FIXUP)
        if (entry[at] < FIRST_KIND || entry[at] > LAST_KIND)
            return false;
    return entry[TYPE] == 0x00 || entry[TYPE] == 0x0A || entry[TYPE] == 0x01;
}

static bool is_end_entry(const uint8_t *entry, size_t length)
{
    return length == END_LENGTH && entry[TYPE] == 0x0B && entry[END_FLAG] <= FLAG_MOST;
}

bool is_index(const uint8_t *bytes, size_t length)
{
    if (length == 0 || length > TKW_INDEX_LENGTH || bytes[0] != VERSION)
        return false;
    size_t at = 1;
    size_t entry = entry_length(bytes + at, length - at);
    while (is_code_entry(bytes + at, entry)) {
        at += entry;
        entry = entry_length(bytes + at, length - at);
    }
    return is_end_entry(bytes + at, entry) && at + entry == length;
}
