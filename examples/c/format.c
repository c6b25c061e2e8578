/* A small printf: a function with any number of arguments, which reads them as its format says.
   It prints four lines of numbers, words and letters. The status is the number of bytes in them, 190. */
#include <stdarg.h>

#include "machine.h"

static int written;

static void write_byte(char byte)
{
    put(byte);
    written++;
}

static void write_digits(unsigned number, unsigned base)
{
    if (number >= base)
        write_digits(number / base, base);
    write_byte("0123456789abcdef"[number % base]);
}

/* Knows %d, %u, %x, %s and %c; any other byte behind a % is written as it is. */
static void print(const char *format, ...)
{
    va_list arguments;

    va_start(arguments, format);
    for (; *format; format++) {
        if (*format != '%') {
            write_byte(*format);
            continue;
        }
        format++;
        if (*format == 'd') {
            int number = va_arg(arguments, int);
            if (number < 0)
                write_byte('-');
            write_digits(number < 0 ? 0u - number : (unsigned)number, 10);
        } else if (*format == 'u') {
            write_digits(va_arg(arguments, unsigned), 10);
        } else if (*format == 'x') {
            write_digits(va_arg(arguments, unsigned), 16);
        } else if (*format == 's') {
            for (const char *text = va_arg(arguments, const char *); *text; text++)
                write_byte(*text);
        } else if (*format == 'c') {
            write_byte(va_arg(arguments, int));
        } else {
            write_byte(*format);
        }
    }
    va_end(arguments);
}

int main(void)
{
    static const char *const answers[] = { "smallest", "largest" };

    print("The %s number is %d,\n", answers[0], -2147483647 - 1);
    print("the %s number is %d, and %u without a sign.\n", answers[1], 2147483647, -1u);
    print("%x, %d and %u are the same %d bits.\n", -7u, -7, -7u, 32);
    print("%c%c%c is short for %s, 100%% of it.\n", 'm', 'u', 'l', "multiply");
    return written;
}
