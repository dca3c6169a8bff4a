/* Environment 1 asks environment 0 a hundred times for a square, and prints their sum and the ticks of a call. */
#include "exos.h"

enum { CALLS = 100 };

static unsigned square(unsigned number)
{
    return number * number;
}

int main(void)
{
    if (aegis_self() == 0)
        rpc_serve_trusted(1, square);
    rpc_open_trusted();
    rpc_ask_trusted(0, 0);
    unsigned sum = 0, before = aegis_clock();
    for (unsigned number = 1; number <= CALLS; number++)
        sum += rpc_ask_trusted(0, number);
    unsigned ticks = aegis_clock() - before;
    printf("%u by %u ticks\n", sum, ticks);
    exit(0);
}
