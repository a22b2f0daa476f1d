/* Shifts and rotations of 64 and of 32 bits, and the change between signed and unsigned numbers of all widths. */
#include "put.h"

static volatile unsigned long seed = 0x0123456789abcdef;

static unsigned rotated(unsigned n, unsigned by)
{
    return n << by | n >> (32 - by);
}

int main(void)
{
    for (unsigned by = 1; by < 32; by += 5) {
        unsigned long n = seed;
        unsigned low = (unsigned)n;

        put_number(n << by);
        put(' ');
        put_number(n >> by);
        put(' ');
        put_number((unsigned long)((long)(n << 3) >> by));
        put(' ');
        put_number(rotated(low, by));
        put(' ');
        put_number((unsigned long)(long)((int)low >> by));
        put(' ');
        put_number((unsigned long)(long)(signed char)(low >> by));
        put(' ');
        put_number((unsigned short)(low << by));
        put('\n');
        seed = n * 6364136223846793005 + 1442695040888963407;
    }
    return 0;
}
