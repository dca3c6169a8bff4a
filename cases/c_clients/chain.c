/* Environment 2 asks environment 1, which asks environment 0 for the square before it answers. */
#include "aegis.h"

static unsigned squared(unsigned client, unsigned number)
{
    (void)client;
    return number * number;
}

static unsigned square_and_one(unsigned client, unsigned number)
{
    (void)client;
    return aegis_ask(0, number).value + 1;
}

int main(void)
{
    unsigned self = aegis_self();
    if (self == 0)
        aegis_serve(1u << 1, squared);
    if (self == 1)
        aegis_serve(1u << 2, square_and_one);
    for (unsigned number = 1; number <= 5; number++) {
        print_number(aegis_ask(1, number).value);
        print(" ");
    }
    return 0;
}
