/* For costs.c and costs_bytes.c: what something takes, in ticks, of which a call of the kernel is one. It is done twice and the second time
   counts, so that no page is missing any more; the ticks of a clock are taken off. */
#ifndef COST_H
#define COST_H
#include "exos.h"

static unsigned empty; /* what a clock takes */

static void cost_begin(void)
{
    for (unsigned turn = 0; turn < 2; turn++) {
        unsigned before = aegis_clock();
        __asm__ volatile("" ::: "memory");
        empty = aegis_clock() - before;
    }
}

/* Prints what something takes, after what makes it ready. */
#define COST(name, ready, what)                              \
    do {                                                     \
        unsigned ticks = 0;                                  \
        for (unsigned turn = 0; turn < 2; turn++) {          \
            ready;                                           \
            unsigned before = aegis_clock();                 \
            __asm__ volatile("" ::: "memory");               \
            what;                                            \
            __asm__ volatile("" ::: "memory");               \
            ticks = aegis_clock() - before;                  \
        }                                                    \
        printf("%5u %s\n", ticks - empty, name);             \
    } while (0)

#endif
