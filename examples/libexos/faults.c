/* Exceptions of several kinds, each dealt with by a function in C: a fault in that function, and a stack that runs out, among them. */
#include "exos.h"

static volatile unsigned seen[32], depth, deepest; /* the handler is entered in its own midst */

static int deal_with(struct exos_frame *frame)
{
    unsigned code = exos_code(frame);
    seen[code]++;
    if (++depth > deepest)
        deepest = depth;
    if (code == EXOS_ADEL && depth < 3)
        *(volatile int *)frame->address; /* the handler makes the same mistake, and is its own handler */
    depth--;
    exos_skip(frame);
    return 1;
}

/* Takes 256 bytes of stack for each call; the handler gives up where a store finds no page. */
static int ran_out(struct exos_frame *frame)
{
    if (exos_code(frame) != EXOS_TLBS)
        return 0;
    printf("the stack ran out %u bytes below the first\n", 0x7ffefff0 - frame->address);
    exit(0);
}

static volatile unsigned deepest_level = ~0u;

__attribute__((noinline)) static int deeper(unsigned level)
{
    volatile char room[256];
    room[0] = level;
    return level < deepest_level ? deeper(level + 1) + room[0] : 0;
}

int main(void)
{
    exos_on_fault(deal_with);
    __asm__ volatile("break");
    __asm__ volatile("lw $8, 1($0); sw $8, 64($0); mfc0 $8, $12; .word 0xfc000000" ::: "$8");
    __asm__ volatile("lui $8, 0x7fff; add $8, $8, $8" ::: "$8");
    printf("break %u, adel %u, tlbs %u, cpu %u, ri %u, ov %u, %u deep\n", seen[EXOS_BREAK], seen[EXOS_ADEL], seen[EXOS_TLBS],
           seen[EXOS_COPROCESSOR], seen[EXOS_RESERVED], seen[EXOS_OVERFLOW], deepest);
    print_out();
    exos_on_fault(ran_out);
    return deeper(0);
}
