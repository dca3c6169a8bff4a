/* Three threads that count until a time, with the shares 1, 2 and 3, and 4, 1 and 1 in environment 1. Each prints its count, and a number
   that comes of as many steps. */
#include "project.h"

enum { UNTIL = 300000, THREADS = 3, STACK = 512 };
static unsigned char stacks[THREADS][STACK] __attribute__((aligned(8)));
static struct thread threads[THREADS];
static volatile unsigned counts[THREADS], states[THREADS], is_done[THREADS];

static void count(void *argument)
{
    unsigned me = (unsigned)argument, steps = 0, state = me;
    for (; aegis_clock() < UNTIL; steps++)
        state = state * 1664525 + 1013904223;
    counts[me] = steps;
    states[me] = state;
    is_done[me] = 1;
}

int main(void)
{
    static const unsigned shares[2][THREADS] = {{1, 2, 3}, {4, 1, 1}};
    for (unsigned me = 0; me < THREADS; me++)
        thread_add(&threads[me], shares[aegis_self()][me], count, (void *)me, stacks[me], STACK);
    if (threads_begin())
        exit(2);
    while (!is_done[0] || !is_done[1] || !is_done[2])
        thread_yield();
    for (unsigned me = 0; me < THREADS; me++)
        printf("%u %08x\n", counts[me], states[me]);
    exit(0);
}
