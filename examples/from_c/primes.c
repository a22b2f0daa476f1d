/* How many primes are below 100? The harts share the numbers: each takes the next one that none has taken. */
#include "put.h"

enum { END = 100 };

static unsigned long next = 2, done = 2;
unsigned long primes;

static __attribute__((noinline)) int is_prime(unsigned long n)
{
    for (unsigned long d = 2; d * d <= n; d++)
        if (n % d == 0)
            return 0;
    return 1;
}

static __attribute__((noinline)) void report(void)
{
    put_text("primes below 100: ");
    put_number(primes);
    put('\n');
}

int main(void)
{
    unsigned long n;

    while ((n = __atomic_fetch_add(&next, 1, __ATOMIC_SEQ_CST)) < END) {
        if (is_prime(n))
            __atomic_fetch_add(&primes, 1, __ATOMIC_SEQ_CST);
        if (__atomic_add_fetch(&done, 1, __ATOMIC_SEQ_CST) == END)
            report();
    }
    return 0;
}
