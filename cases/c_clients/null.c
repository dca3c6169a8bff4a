/* Environment 1 asks environment 0 a hundred times for the number after one, and prints their sum and how long it took. */
#include "aegis.h"

enum { CALLS = 100 };

static unsigned next(unsigned client, unsigned number)
{
    (void)client;
    return number + 1;
}

int main(void)
{
    if (aegis_self() == 0)
        aegis_serve(1u << 1, next);
    aegis_ask(0, 0); /* from here on the server is open */
    unsigned sum = 0, before = aegis_clock();
    for (unsigned number = 0; number < CALLS; number++)
        sum += aegis_ask(0, number).value;
    unsigned ticks = aegis_clock() - before;
    print_number(sum);
    print(" ");
    print_number(ticks);
    print("\n");
    return 0;
}
