/* A program that is asked for pages. It gives the first back, keeps on with a copy of one that is taken, and its death is the access to
   one that is taken without a copy. */
#include "exos.h"

static unsigned *const memory = (unsigned *)VM_BASE;

static unsigned *word_of(unsigned page)
{
    return memory + page * (AEGIS_PAGE / 4);
}

int main(void)
{
    exos_on_fault(vm_on_fault);
    vm_map(memory, 6, VM_WRITE);
    for (unsigned page = 0; page < 6; page++)
        *word_of(page) = 100 + page;
    while (!revoke_asked())
        aegis_yield();
    unsigned asked = revoke_asked();
    vm_unmap(word_of(5), 1);
    printf("asked for %u, and one is given\n", asked);
    struct aegis_answer spare = aegis_alloc(AEGIS_ANY, 0, 0);
    revoke_backup(spare.value);
    while (AEGIS_TAKEN_PAGES < 1)
        aegis_yield();
    printf("page %u was taken, its copy is %u: %u\n", AEGIS_TAKINGS[0].page, revoke_copy_of(AEGIS_TAKINGS[0].page), *word_of(0));
    while (AEGIS_TAKEN_PAGES < 2)
        aegis_yield();
    printf("page %u was taken without a copy\n", AEGIS_TAKINGS[1].page);
    print_out();
    return *word_of(1);
}
