/* The store: a page for each page of the region, to be bound by whoever has the word. It drops its slot, which has its own number, and
   never runs again. */
#include "project.h"

int main(void)
{
    for (unsigned place = 0; place < PAGES; place++)
        if (aegis_alloc(STORE_FIRST + place, 0, STORE_WORD).code)
            exit(1);
    aegis_drop(aegis_self());
    for (;;)
        aegis_yield();
}
