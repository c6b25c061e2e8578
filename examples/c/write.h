/* Words and numbers, written byte by byte. */
#ifndef WRITE_H
#define WRITE_H

#include "machine.h"

static inline void write_text(const char *text)
{
    while (*text)
        put(*text++);
}

/* Writes a number in decimal, with blanks before it where it is narrower than `width`. */
static inline void write_number(int number, int width)
{
    char digits[10];
    int length = 0;
    unsigned rest = number < 0 ? 0u - number : (unsigned)number;

    do
        digits[length++] = '0' + rest % 10;
    while (rest /= 10);
    for (int blanks = width - length - (number < 0); blanks > 0; blanks--)
        put(' ');
    if (number < 0)
        put('-');
    while (length)
        put(digits[--length]);
}

#endif
