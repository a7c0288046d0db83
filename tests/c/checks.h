/* Counting checks, and looking at memory. */
#ifndef CHECKS_H
#define CHECKS_H

#include <stdint.h>
#include <stdio.h>
#include <string.h>

static int checks, failed;

/* counts a check, and says what failed */
static inline void check(int holds, const char *what, const char *of)
{
    checks++;
    if (!holds) {
        failed++;
        printf("failed: %s of %s\n", what, of);
    }
}

/* whether all the bytes have this value */
static inline int all(const void *memory, size_t bytes, uint8_t value)
{
    const uint8_t *byte = memory;
    while (bytes > 0 && *byte == value) {
        byte++;
        bytes--;
    }
    return bytes == 0;
}

/* the bytes that a text of hexadecimal digits writes, two digits and a space each */
static inline size_t bytes_of(const char *text, uint8_t *bytes)
{
    static const char digits[] = "0123456789abcdef";
    size_t count = 0;
    while (text[0]) {
        bytes[count++] = (uint8_t)(16 * (strchr(digits, text[0]) - digits) + (strchr(digits, text[1]) - digits));
        text += text[2] ? 3 : 2;
    }
    return count;
}

#endif
