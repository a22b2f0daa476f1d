/* CRC-32, Adler-32 and FNV-1a of the same bytes; the check value of CRC-32 of 123456789 is 3421780262. */
#include "put.h"

static unsigned table[256];

static unsigned crc(const unsigned char *at, unsigned long length)
{
    unsigned value = 0xffffffff;

    while (length--)
        value = table[(value ^ *at++) & 255] ^ value >> 8;
    return ~value;
}

static unsigned adler(const unsigned char *at, unsigned long length)
{
    unsigned a = 1, b = 0;

    while (length--) {
        a = (a + *at++) % 65521;
        b = (b + a) % 65521;
    }
    return b << 16 | a;
}

static unsigned long fnv(const unsigned char *at, unsigned long length)
{
    unsigned long value = 14695981039346656037u;

    while (length--)
        value = (value ^ *at++) * 1099511628211;
    return value;
}

int main(void)
{
    static const unsigned char text[] = "123456789";

    for (unsigned i = 0; i < 256; i++) {
        unsigned value = i;

        for (int k = 0; k < 8; k++)
            value = value & 1 ? 0xedb88320 ^ value >> 1 : value >> 1;
        table[i] = value;
    }
    for (unsigned long length = 0; length <= 9; length += 3) {
        put_number(crc(text, length));
        put(' ');
        put_number(adler(text, length));
        put(' ');
        put_number(fnv(text, length));
        put('\n');
    }
    return 0;
}
