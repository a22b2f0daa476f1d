/* Bit fields, unions and members of all widths, which are read and written by bytes and halves of words. */
#include "put.h"

struct packet {
    unsigned char kind : 3, flags : 5;
    signed char small;
    unsigned short port;
    short offset;
    int length;
    unsigned long stamp : 40, left : 24;
};

union view { unsigned long whole; unsigned short halves[4]; signed char bytes[8]; };

static struct packet packets[3];
static volatile unsigned step = 77;

int main(void)
{
    union view view = { 0x80ff7f0112345678 };

    for (int i = 0; i < 3; i++) {
        struct packet *p = &packets[i];

        p->kind = i + step;
        p->flags = 31 - i;
        p->small = (signed char)(100 * (i + 1));
        p->port = 65535 - step * i;
        p->offset = -30000 - 2000 * i;
        p->length = -i;
        p->stamp = 0xfedcba9876 + i;
        p->left = p->stamp >> 8;
    }
    for (int i = 0; i < 3; i++) {
        const struct packet *p = &packets[i];

        put_number(p->kind);
        put(' ');
        put_number(p->flags);
        put(' ');
        put_number((unsigned long)(p->small + 1000));
        put(' ');
        put_number(p->port);
        put(' ');
        put_number((unsigned long)(p->offset + 100000));
        put(' ');
        put_number((unsigned)p->length);
        put(' ');
        put_number(p->stamp);
        put(' ');
        put_number(p->left);
        put('\n');
    }
    for (int i = 0; i < 8; i++) {
        view.bytes[i] = (signed char)(view.bytes[i] / 2);
        view.halves[i / 2] ^= 0x101;
    }
    put_number(view.whole);
    put('\n');
    return 0;
}
