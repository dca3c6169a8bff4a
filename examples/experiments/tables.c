/* Two page tables for the same walk: a list with a word for each address, and an inverted one, with a row for each page of memory, that is
   found by a hash. 900 misses over 300 pages, of which 256 are bound at most. TABLE says which. */
#include "exos.h"

enum { PAGES = 300, ROUNDS = 3, ROWS = 512, BASE = VM_BASE / 4096 };

static unsigned misses;
static struct {
    unsigned vpn, page;
} rows[ROWS];

/* The row of a VPN, or the free one where it belongs. */
static unsigned row_of(unsigned vpn)
{
    unsigned row = (vpn ^ vpn >> 9) % ROWS;
    while (rows[row].vpn && rows[row].vpn != vpn)
        row = (row + 1) % ROWS;
    return row;
}

static unsigned linear[PAGES];

static int on_linear(struct exos_frame *frame)
{
    unsigned place = frame->address / AEGIS_PAGE - BASE;
    misses++;
    if (place >= PAGES)
        return 0;
    if (!linear[place])
        linear[place] = aegis_alloc(AEGIS_ANY, 0, 0).value;
    return aegis_bind((void *)frame->address, linear[place], 1, 0) == AEGIS_OK;
}

static int on_inverted(struct exos_frame *frame)
{
    unsigned vpn = frame->address / AEGIS_PAGE, row = row_of(vpn);
    misses++;
    if (vpn - BASE >= PAGES)
        return 0;
    if (!rows[row].vpn) {
        rows[row].vpn = vpn;
        rows[row].page = aegis_alloc(AEGIS_ANY, 0, 0).value;
    }
    return aegis_bind((void *)frame->address, rows[row].page, 1, 0) == AEGIS_OK;
}

static unsigned walk(void)
{
    volatile unsigned *memory = (unsigned *)VM_BASE;
    unsigned before = aegis_clock();
    for (unsigned round = 0; round < ROUNDS; round++)
        for (unsigned page = 0; page < PAGES; page++)
            memory[page * (AEGIS_PAGE / 4)] += 1;
    return aegis_clock() - before;
}

int main(void)
{
    exos_on_fault(on_linear);
    unsigned first = walk(), of_linear = misses;
    for (unsigned page = 0; page < PAGES; page++)
        aegis_free(linear[page]);
    misses = 0;
    exos_on_fault(on_inverted);
    unsigned second = walk();
    printf("linear %u ticks, %u misses; inverted %u ticks, %u misses\n", first, of_linear, second, misses);
    exit(0);
}
