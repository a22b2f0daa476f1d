/* Quotients and remainders, signed and unsigned, of 64 and of 32 bits, by variables and by constants. */
#include "put.h"

static volatile long longs[] = { 7, -7, 1234567890123456789, -1234567890123456789 };
static volatile int ints[] = { 3, -3, 1000000007, -2147483647 };

static void put_signed(long n)
{
    if (n < 0)
        put('-');
    put_number(n < 0 ? -(unsigned long)n : (unsigned long)n);
    put(' ');
}

int main(void)
{
    for (int i = 0; i < 4; i++) {
        for (int k = 0; k < 4; k++) {
            put_signed(longs[i] / ints[k]);
            put_signed(longs[i] % ints[k]);
            put_signed(ints[i] / ints[k]);
            put_signed(ints[i] % ints[k]);
            put_number((unsigned long)longs[i] / (unsigned)ints[k]);
            put(' ');
            put_number((unsigned)ints[i] % (unsigned)ints[k]);
            put(' ');
        }
        put_signed(longs[i] / 10);
        put_signed(longs[i] % 10);
        put_signed(ints[i] / 7);
        put_signed(ints[i] % 7);
        put('\n');
    }
    return 0;
}
