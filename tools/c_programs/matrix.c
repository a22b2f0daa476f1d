/* Products of matrices, and the Fibonacci numbers by a power of one. */
#include "put.h"

enum { SIZE = 5 };

static const short left[SIZE][SIZE] = {
    { 1, 2, 3, 4, 5 }, { -1, 0, 7, 9, 2 }, { 300, -300, 6, 1, 0 }, { 8, 8, 8, 8, 8 }, { 32767, -32768, 1, 0, -1 },
};
static long product[SIZE][SIZE];

static void square(unsigned long m[2][2], unsigned long n[2][2])
{
    unsigned long r[2][2] = { { 0, 0 }, { 0, 0 } };

    for (int i = 0; i < 2; i++)
        for (int j = 0; j < 2; j++)
            for (int k = 0; k < 2; k++)
                r[i][j] += m[i][k] * n[k][j];
    for (int i = 0; i < 4; i++)
        m[i / 2][i % 2] = r[i / 2][i % 2];
}

int main(void)
{
    unsigned long power[2][2] = { { 1, 1 }, { 1, 0 } }, one[2][2] = { { 1, 1 }, { 1, 0 } };

    for (int i = 0; i < SIZE; i++)
        for (int j = 0; j < SIZE; j++)
            for (int k = 0; k < SIZE; k++)
                product[i][j] += (long)left[i][k] * left[k][j];
    for (int i = 0; i < SIZE; i++) {
        for (int j = 0; j < SIZE; j++) {
            put_number((unsigned long)product[i][j] & 0xffffffffffff);
            put(' ');
        }
        put('\n');
    }
    for (int i = 0; i < 88; i++)
        square(power, one);
    put_number(power[0][1]);
    put('\n');
    return 0;
}
