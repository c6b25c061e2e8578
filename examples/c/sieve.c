/* The sieve of Eratosthenes. Its marks are bytes in .bss, which the program finds as zeros.
   It prints the primes below 500, ten in a line, and how many they are. The status is that number, 95. */
#include "write.h"

enum { LIMIT = 500 };

static unsigned char is_composite[LIMIT];

int main(void)
{
    int found = 0;

    for (int number = 2; number < LIMIT; number++) {
        if (is_composite[number])
            continue;
        for (int multiple = number * number; multiple < LIMIT; multiple += number)
            is_composite[multiple] = 1;
        write_number(number, 4);
        if (++found % 10 == 0)
            put('\n');
    }
    if (found % 10 != 0)
        put('\n');
    write_number(found, 0);
    write_text(" primes below ");
    write_number(LIMIT, 0);
    put('\n');
    return found;
}
