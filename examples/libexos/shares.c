/* Environment 0 has the slot, and gives its slices to 1, 2 and 3 by shares 3, 2 and 1; each of these counts, and accepts it. */
#include "exos.h"

int main(void)
{
    static volatile unsigned count;
    if (aegis_self() == 0) {
        if (stride_add(9, 0) != -1 || stride_add(9, 5041) != -1)
            return 1;
        for (unsigned env = 1; env <= 3; env++)
            stride_add(env, 4 - env);
        stride_run();
    }
    for (;;)
        count++;
}
