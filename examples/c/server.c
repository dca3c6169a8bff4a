/* Environment 0 keeps a sum. The other two add to it by calls, and print what it comes to. */
#include "aegis.h"

static unsigned sum;

static unsigned added(unsigned client, unsigned number)
{
    (void)client;
    sum += number;
    return sum;
}

int main(void)
{
    unsigned self = aegis_self();
    if (self == 0)
        aegis_serve(1u << 1 | 1u << 2, added);
    for (unsigned number = 1; number <= 3; number++) {
        struct aegis_answer answer = aegis_ask(0, self == 1 ? number : 100 * number);
        if (answer.code != AEGIS_OK)
            return 1;
        print_number(answer.value);
        print(" ");
    }
    return 0;
}
