#include "aegis.h"
int main(void)
{
    volatile int n = 0;
    for (;;)
        n++;
}
