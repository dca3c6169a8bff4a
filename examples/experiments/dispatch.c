/* Exception dispatch by kind: to a handler of three instructions and back, and to a function in C and back. Of each kind the ticks from
   the instruction that raises it to the one after it. */
#include "exos.h"

static volatile unsigned kept;

/* The shortest handler passes over the instruction. */
void pass_at_once(void);
__asm__(".section .text.pass_at_once,\"ax\"\n.globl pass_at_once\n.set push\n.set noreorder\n.set noat\npass_at_once:\n"
        "lw $1, 0x1000($0)\nlw $27, 0x1008($0)\naddiu $26, $26, 4\njr $26\nlw $26, 0x1004($0)\n.set pop\n");

static int pass(struct exos_frame *frame)
{
    exos_skip(frame);
    return 1;
}

static unsigned empty;

#define TICKS(what)                                 \
    ({                                              \
        unsigned before = aegis_clock();            \
        __asm__ volatile(what ::: "$8", "memory");  \
        aegis_clock() - before - empty;             \
    })

static void all(const char *to)
{
    unsigned unaligned = TICKS("lw $8, 1($0)"), overflow = TICKS("lui $8, 0x7fff\n\tadd $8, $8, $8") - 1,
             coprocessor = TICKS("mfc0 $8, $12"), protection = TICKS("lui $8, 0x40\n\tsw $0, 0($8)") - 1, breakpoint = TICKS("break");
    printf("%s: unaligned %u, overflow %u, coprocessor %u, protection %u, break %u\n", to, unaligned, overflow, coprocessor, protection, breakpoint);
}

int main(void)
{
    empty = TICKS("");
    aegis_context(AEGIS_EXCEPTIONS, pass_at_once);
    all("bare");
    exos_on_fault(pass);
    all("C");
    exit(0);
}
