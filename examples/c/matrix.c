/* The product of two matrices of 150 by 150 numbers, which take some 30 million ticks: `aegis long` runs it to its end. It is tested at
   three vectors, where the product has to do what its factors do one after the other, and a checksum of it is printed. */
#include "aegis.h"

enum { SIZE = 150, VECTORS = 3 };
static unsigned left[SIZE][SIZE], right[SIZE][SIZE], product[SIZE][SIZE];

static unsigned next(unsigned *seed)
{
    *seed = *seed * 1664525 + 1013904223;
    return *seed >> 8;
}

static __attribute__((noinline)) unsigned cell(unsigned row, unsigned column)
{
    unsigned sum = 0;
    for (unsigned at = 0; at < SIZE; at++)
        sum += left[row][at] * right[at][column];
    return sum;
}

static __attribute__((noinline)) void multiply(void)
{
    for (unsigned row = 0; row < SIZE; row++)
        for (unsigned column = 0; column < SIZE; column++)
            product[row][column] = cell(row, column);
}

static void apply(unsigned (*matrix)[SIZE], const unsigned *from, unsigned *to)
{
    for (unsigned row = 0; row < SIZE; row++) {
        to[row] = 0;
        for (unsigned column = 0; column < SIZE; column++)
            to[row] += matrix[row][column] * from[column];
    }
}

/* How many places of the vectors differ. */
static unsigned differences(unsigned *seed)
{
    static unsigned vector[SIZE], between[SIZE], twice[SIZE], once[SIZE];
    unsigned found = 0;
    for (unsigned count = 0; count < VECTORS; count++) {
        for (unsigned at = 0; at < SIZE; at++)
            vector[at] = next(seed);
        apply(right, vector, between);
        apply(left, between, twice);
        apply(product, vector, once);
        for (unsigned at = 0; at < SIZE; at++)
            found += twice[at] != once[at];
    }
    return found;
}

int main(void)
{
    unsigned seed = 1, sum = 0, wrong;
    for (unsigned row = 0; row < SIZE; row++)
        for (unsigned column = 0; column < SIZE; column++) {
            left[row][column] = next(&seed);
            right[row][column] = next(&seed);
        }
    multiply();
    wrong = differences(&seed);
    for (unsigned row = 0; row < SIZE; row++)
        for (unsigned column = 0; column < SIZE; column++)
            sum = 31 * sum + product[row][column];
    print("matrix ");
    print_number(wrong);
    print(" ");
    print_number(sum);
    print("\n");
    return wrong != 0;
}
