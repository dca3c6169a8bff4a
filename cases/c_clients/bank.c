/* Environment 0 keeps an account for each of the others, and adds to the caller's account what the caller pays in. The accounts are
   small data, which code finds by $28. */
#include "aegis.h"

static unsigned accounts[4] __attribute__((section(".sdata"))) = {0};

static unsigned paid_in(unsigned client, unsigned amount)
{
    return client < 4 ? accounts[client] += amount : 0;
}

int main(void)
{
    if (aegis_self() == 0)
        aegis_serve(1u << 1 | 1u << 2, paid_in);
    for (unsigned turn = 0; turn < 3; turn++) {
        struct aegis_answer answer = aegis_ask(0, 100);
        if (answer.code != AEGIS_OK)
            return 1;
        print_number(answer.value);
        print(" ");
    }
    return 0;
}
