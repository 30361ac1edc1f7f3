/* Numbers as people write them: decimal, 0x hex or $ hex. */
#ifndef NUMBER_H
#define NUMBER_H

#include <stdbool.h>
#include <stddef.h>
#include <stdint.h>

/* The greatest address. */
enum { ADDRESS_MOST = 65535 };

/* Reads the whole text as one number. False if it is none, or does not fit 32 bits. */
bool parse_number(const char *text, size_t length, uint32_t *number);

/* The value of a digit in base 10 or 16, or -1. */
int digit_value(char digit, int base);

#endif
