/* The product of two matrices of 64 by 64 words: the largest for which a run has time is 79. */
#include "exos.h"

enum { SIZE = 64 };
static unsigned a[SIZE][SIZE], b[SIZE][SIZE], c[SIZE][SIZE];

int main(void)
{
    for (unsigned i = 0; i < SIZE; i++)
        for (unsigned j = 0; j < SIZE; j++) {
            a[i][j] = i + 2 * j;
            b[i][j] = 3 * i ^ j;
        }
    unsigned before = aegis_clock(), trace = 0;
    for (unsigned i = 0; i < SIZE; i++)
        for (unsigned j = 0; j < SIZE; j++) {
            unsigned sum = 0;
            for (unsigned k = 0; k < SIZE; k++)
                sum += a[i][k] * b[k][j];
            c[i][j] = sum;
        }
    unsigned ticks = aegis_clock() - before;
    for (unsigned i = 0; i < SIZE; i++)
        trace += c[i][i];
    printf("%u ticks, trace %u\n", ticks, trace);
    exit(0);
}
