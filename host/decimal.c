#include "decimal.h"

#include <stdio.h>

#define PARTS 4

/* Divides a number, whose parts of 32 bits stand most significant first, by ten. Returns the rest. */
static unsigned divide_by_ten(uint32_t parts[PARTS])
{
    uint64_t rest = 0;
    int i;
    for (i = 0; i < PARTS; i++) {
        rest = rest << 32 | parts[i];
        parts[i] = (uint32_t)(rest / 10);
        rest %= 10;
    }
    return (unsigned)rest;
}

static int is_zero(const uint32_t parts[PARTS])
{
    return (parts[0] | parts[1] | parts[2] | parts[3]) == 0;
}

void print_integer(uint64_t upper, uint64_t lower)
{
    uint32_t parts[PARTS];
    char digits[40]; /* 2 to the power of 127 has 39 digits */
    int count = 0;

    if (upper >> 63 != 0) {
        putchar('-');
        lower = ~lower + 1;
        upper = ~upper + (lower == 0);
    }
    parts[0] = (uint32_t)(upper >> 32);
    parts[1] = (uint32_t)(upper & 0xFFFFFFFFu);
    parts[2] = (uint32_t)(lower >> 32);
    parts[3] = (uint32_t)(lower & 0xFFFFFFFFu);
    do {
        digits[count] = (char)('0' + divide_by_ten(parts));
        count++;
    } while (!is_zero(parts));
    while (count > 0) {
        count--;
        putchar(digits[count]);
    }
}
