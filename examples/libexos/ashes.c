/* A claim whose handler answers each packet with a count, in words made by macros; and a list of words that the kernel refuses. */
#include "exos.h"
#include "ash.h"

static const struct aegis_atom filter[] __attribute__((aligned(32))) = {{.offset = 12, .width = 2, .mask = 0xffff, .value = 0x88b8}};

enum { REPLY = ASH_PAGE + 0x800, COUNT = ASH_PAGE + 0x900 };

/* The reply: the packet's two addresses swapped, its kind, and how many packets came, of which the program can read the count too. */
static const unsigned words[] __attribute__((aligned(256))) = {
    ASH_LI(16, REPLY),
    ASH_LH(8, 0, 6), ASH_SH(8, 16, 0), ASH_LW(8, 0, 8), ASH_SH(8, 16, 2), ASH_LH(8, 0, 10), ASH_SH(8, 16, 4),
    ASH_LW(8, 0, 0), ASH_SH(8, 16, 6), ASH_LH(8, 0, 2), ASH_SH(8, 16, 8), ASH_LH(8, 0, 4), ASH_SH(8, 16, 10),
    ASH_LH(8, 0, 12), ASH_SH(8, 16, 12),
    ASH_LW(9, 16, COUNT - REPLY), ASH_ADD(9, 9, 1), ASH_SW(9, 16, COUNT - REPLY), ASH_SB(9, 16, 14),
    ASH_ADD(4, 16, 0), ASH_LI(5, 15), ASH_SEND,
};
static const unsigned backwards[] __attribute__((aligned(16))) = {ASH_LI(8, 1), ASH_BEQ(0, 0, -1), ASH_LI(8, 2)};

int main(void)
{
    volatile unsigned *count = (unsigned *)(0x00700000 + COUNT - ASH_PAGE);
    struct aegis_answer page = aegis_alloc(AEGIS_ANY, 0, 0);
    aegis_bind((void *)0x00700000, page.value, 1, 0);
    struct aegis_answer claim = aegis_claim(filter, 1, page.value), bad = ash_load(claim.value, backwards);
    printf("words that go back: %u at word %u; ours: %u\n", bad.code, bad.value, ash_load(claim.value, words).code);
    while (*count < 3)
        aegis_yield();
    printf("%u packets were answered, and %u are in the ring\n", *count, *(volatile unsigned *)0x00700000);
    exit(0);
}
