/* Yields five times, and prints how often the time rose. */
#include "aegis.h"

unsigned left = 5; /* each environment counts down its own */

int main(void)
{
    unsigned rose = 0;
    for (; left > 0; left--) {
        unsigned before = aegis_clock();
        aegis_yield();
        rose += aegis_clock() > before;
    }
    print("environment ");
    print_number(aegis_self());
    print(": the time rose ");
    print_number(rose);
    print(" times\n");
    return 0;
}
