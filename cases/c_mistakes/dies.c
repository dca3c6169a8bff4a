#include "aegis.h"
static int twice(volatile int *at)
{
    return *at * 2;
}
int main(void)
{
    print("so far\n");
    return twice((volatile int *)0);
}
