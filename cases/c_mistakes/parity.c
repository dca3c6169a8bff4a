#include "aegis.h"
int main(void)
{
    volatile unsigned word = 77;
    return __builtin_parity(word);
}
