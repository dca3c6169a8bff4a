#include <limits.h>
#include "aegis.h"
int main(void)
{
    print_number(INT_MAX);
    print("\n");
    return CHAR_BIT - 8;
}
