/* A solution of exercise 9 in C, as stale.s is one in assembly. */
#include "aegis.h"

#define page 20     /* the page, and the word that is lent. The checker has other numbers in these two lines */
#define word 0x1234
#define WINDOW ((volatile unsigned *)0x500000)

static void missed(void)
{
    aegis_bind((void *)WINDOW, page, 1, word);
    for (;;)
        aegis_yield();
}

int main(void)
{
    aegis_context(AEGIS_EXCEPTIONS, missed);
    while (aegis_bind((void *)WINDOW, page, 1, word) != AEGIS_OK)
        aegis_yield();
    for (;;) {
        WINDOW[8] = 0x500000;
        aegis_yield();
    }
}
