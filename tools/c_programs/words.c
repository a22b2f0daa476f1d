/* Counts the words of a text: strings, pointers to them in data that is only read, and a small table by hash. */
#include "put.h"

static const char *const lines[] = {
    "the hart waits at the gate", "the gate is open and the hart goes on", "a hart is a hart", "", "gate",
};
static struct { const char *word; unsigned length, count; } slots[32];

static int same(const char *a, const char *b, unsigned length)
{
    while (length && *a == *b)
        a++, b++, length--;
    return length == 0;
}

static void count(const char *word, unsigned length)
{
    unsigned at = 0;

    for (unsigned i = 0; i < length; i++)
        at = at * 31 + (unsigned char)word[i];
    for (at %= 32; slots[at].count; at = (at + 1) % 32)
        if (slots[at].length == length && same(slots[at].word, word, length))
            break;
    slots[at].word = word;
    slots[at].length = length;
    slots[at].count++;
}

int main(void)
{
    for (unsigned i = 0; i < sizeof lines / sizeof *lines; i++) {
        const char *at = lines[i], *start;

        while (*at) {
            for (start = at; *at && *at != ' '; at++)
                ;
            count(start, (unsigned)(at - start));
            while (*at == ' ')
                at++;
        }
    }
    for (unsigned i = 0; i < 32; i++) {
        if (!slots[i].count)
            continue;
        for (unsigned k = 0; k < slots[i].length; k++)
            put(slots[i].word[k]);
        put('=');
        put_number(slots[i].count);
        put(' ');
    }
    put('\n');
    return 0;
}
