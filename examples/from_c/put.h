/* The console: service 1 sends the byte that is in a0. With HOST defined the same programs print on the machine that compiles them. */
#ifdef HOST
#include <stdio.h>
static void put(char byte)
{
    putchar(byte);
}
#else
static void put(char byte)
{
    register unsigned long a0 __asm__("a0") = (unsigned char)byte;
    register unsigned long a7 __asm__("a7") = 1;
    __asm__ volatile("ecall" : : "r"(a0), "r"(a7) : "memory");
}
#endif

static void put_text(const char *text)
{
    while (*text)
        put(*text++);
}

static void put_number(unsigned long n)
{
    if (n > 9)
        put_number(n / 10);
    put('0' + n % 10);
}
