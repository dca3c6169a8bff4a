/* says: 5 missing: The attacker died of tlbl in tick */
#include "aegis.h"

int main(void)
{
    print_number(*(volatile unsigned *)0x500000);
    return 0;
}
