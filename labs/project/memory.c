/* Loads and stores all over the region, of which a part has frames: 12 in environment 0, and 7 elsewhere. It prints a sum of what it
   loaded. */
#include "project.h"

enum { ACCESSES = 150 };

int main(void)
{
    volatile unsigned *region = (unsigned *)REGION;
    unsigned state = 1, sum = 0;
    pager_begin(aegis_self() ? 7 : 12);
    for (unsigned count = 0; count < ACCESSES; count++) {
        state = state * 1664525 + 1013904223;
        unsigned place = state / 256 % (PAGES * AEGIS_PAGE / 4) / 64 * 64; /* few, so that some are met again */
        sum = sum * 5 + region[place];
        if (count % 3)
            region[place] = state;
    }
    printf("sum %08x\n", sum);
    exit(0);
}
