/* Sorts records by quicksort: recursion, structs, pointers to functions. */
#include "put.h"

struct record { unsigned key; const char *name; };

static struct record records[] = {
    { 41, "xor" }, { 7, "add" }, { 99, "sub" }, { 7, "and" }, { 0, "or" }, { 4000000000u, "sll" }, { 23, "srl" }, { 12, "sra" },
};

static int by_key(const struct record *a, const struct record *b)
{
    return a->key < b->key;
}

static int by_name(const struct record *a, const struct record *b)
{
    const char *s = a->name, *t = b->name;

    while (*s && *s == *t)
        s++, t++;
    return *s < *t;
}

static void sort(struct record *low, struct record *high, int (*less)(const struct record *, const struct record *))
{
    struct record *from = low, *to = high, swap, middle;

    if (high - low < 1)
        return;
    middle = low[(high - low) / 2];
    while (from <= to) {
        while (less(from, &middle))
            from++;
        while (less(&middle, to))
            to--;
        if (from <= to) {
            swap = *from;
            *from++ = *to;
            *to-- = swap;
        }
    }
    sort(low, to, less);
    sort(from, high, less);
}

static void show(void)
{
    for (unsigned i = 0; i < sizeof records / sizeof *records; i++) {
        put_text(records[i].name);
        put(' ');
    }
    put('\n');
}

int main(void)
{
    unsigned last = sizeof records / sizeof *records - 1;

    sort(records, records + last, by_name);
    show();
    for (unsigned i = 0; i <= last; i++)
        records[i].key += i == 0; /* and has 8 then, so that no two keys are the same */
    sort(records, records + last, by_key);
    show();
    return 0;
}
