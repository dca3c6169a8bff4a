#include "aegis.h"
int main(void)
{
    volatile unsigned word = 77;
    volatile unsigned long long wide = 77ull << 40, low = 80;
    return __builtin_clz(word) == 25 && __builtin_ctz(word) == 0 && __builtin_popcount(word) == 4 && __builtin_clzll(wide) == 17 &&
                   __builtin_ctzll(wide) == 40 && __builtin_popcountll(wide) == 4 && __builtin_clzll(low) == 57 && __builtin_ctzll(low) == 4
               ? 0
               : 1;
}
