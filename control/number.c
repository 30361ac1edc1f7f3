#include "number.h"

int digit_value(char digit, int base)
{
    int value = -1;
    if (digit >= '0' && digit <= '9')
        value = digit - '0';
    else if (digit >= 'a' && digit <= 'f')
        value = digit - 'a' + 10;
    else if (digit >= 'A' && digit <= 'F')
        value = digit - 'A' + 10;
    return value < base ? value : -1;
}

/* The length of a prefix that says hex, or 0. */
static size_t hex_prefix(const char *text, size_t length)
{
    if (length >= 1 && text[0] == '$')
        return 1;
    if (length >= 2 && text[0] == '0' && (text[1] == 'x' || text[1] == 'X'))
        return 2;
    return 0;
}

bool parse_number(const char *text, size_t length, uint32_t *number)
{
    size_t prefix = hex_prefix(text, length);
    int base = prefix > 0 ? 16 : 10;
    uint64_t sum = 0;
    if (length == prefix)
        return false;
    for (size_t at = prefix; at < length; at++) {
        int value = digit_value(text[at], base);
        if (value < 0)
            return false;
        sum = sum * (uint64_t)base + (uint64_t)value;
        if (sum > UINT32_MAX)
            return false;
    }
    *number = (uint32_t)sum;
    return true;
}
