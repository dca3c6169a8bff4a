/* Says hello. */
#include "aegis.h"

int main(void)
{
    print("hello from C\n");
    return 0;
}
