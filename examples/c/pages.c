/* Two environments that share a page: 0 allocates it and writes a text into it, and 1 binds it by its read word, again and
   again until it may, and prints the text. */
#include "aegis.h"

enum { SHARED = 900 };
#define WORD 0x0123456789abcdefull

int main(void)
{
    char *place = (char *)0x00500000;
    if (aegis_self() == 0) {
        const char *text = "from one to the other\n";
        if (aegis_alloc(SHARED, WORD, 0).code || aegis_bind(place, SHARED, 1, 0))
            return 1;
        for (unsigned i = 0; (place[i] = text[i]); i++)
            ;
        for (;;)
            aegis_yield();
    }
    while (aegis_bind(place, SHARED, 0, WORD) == AEGIS_NO_RIGHT || !*place)
        aegis_yield();
    print(place);
    return 0;
}
