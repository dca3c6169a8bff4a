/* Appel and Li's primitives of virtual memory, as the papers measured them, over vm.c. Each is the mean of 100. */
#include "exos.h"

enum { PAGES = 100 };
static unsigned *const memory = (unsigned *)VM_BASE;
static volatile unsigned kept;
static unsigned other;

static unsigned *word_of(unsigned page)
{
    return memory + page * (AEGIS_PAGE / 4);
}

/* appel1: the handler of a protected page opens it, and closes another. */
static int open_and_close(struct exos_frame *frame)
{
    vm_protect((void *)(frame->address & ~(AEGIS_PAGE - 1)), 1, VM_WRITE);
    vm_protect(word_of(other), 1, VM_READ);
    return vm_on_fault(frame);
}

/* appel2: it opens the page alone. */
static int open_one(struct exos_frame *frame)
{
    vm_protect((void *)(frame->address & ~(AEGIS_PAGE - 1)), 1, VM_WRITE);
    return vm_on_fault(frame);
}

static int pass(struct exos_frame *frame)
{
    exos_skip(frame);
    return 1;
}

static void touch_all(void)
{
    for (unsigned page = 0; page < PAGES; page++)
        *word_of(page) = page;
}

static void print_mean(const char *name, unsigned ticks, unsigned count)
{
    printf("%s %u.%02u\n", name, ticks / count, ticks % count * 100 / count);
}

static void protections(void)
{
    unsigned before = aegis_clock(), dirty = 0;
    for (unsigned page = 0; page < PAGES; page++)
        dirty += vm_is_dirty(word_of(page));
    print_mean("dirty", aegis_clock() - before, PAGES);
    kept = dirty;
    before = aegis_clock();
    for (unsigned page = 0; page < PAGES; page++)
        vm_protect(word_of(page), 1, VM_READ);
    print_mean("prot1", aegis_clock() - before, PAGES);
    vm_protect(memory, PAGES, VM_WRITE);
    touch_all();
    before = aegis_clock();
    vm_protect(memory, PAGES, VM_READ);
    print_mean("prot100", aegis_clock() - before, 1);
    before = aegis_clock();
    vm_protect(memory, PAGES, VM_WRITE);
    print_mean("unprot100", aegis_clock() - before, 1);
}

static void faults(void)
{
    unsigned before;
    touch_all();
    vm_protect(memory, PAGES, VM_READ);
    exos_on_fault(pass);
    before = aegis_clock();
    for (unsigned page = 0; page < PAGES; page++)
        *(volatile unsigned *)word_of(page) = 1;
    print_mean("trap", aegis_clock() - before, PAGES);
    exos_on_fault(vm_on_fault);
    vm_protect(memory, PAGES, VM_WRITE);
    touch_all();
    vm_protect(word_of(1), PAGES - 1, VM_READ);
    exos_on_fault(open_and_close);
    before = aegis_clock();
    for (unsigned page = 1; page < PAGES; page++) {
        other = page - 1;
        *(volatile unsigned *)word_of(page) = 1;
    }
    print_mean("appel1", aegis_clock() - before, PAGES - 1);
    exos_on_fault(vm_on_fault);
    vm_protect(memory, PAGES, VM_WRITE);
    touch_all();
    vm_protect(memory, PAGES, VM_READ);
    exos_on_fault(open_one);
    before = aegis_clock();
    for (unsigned page = 0; page < PAGES; page++)
        *(volatile unsigned *)word_of(page) = 1;
    print_mean("appel2", aegis_clock() - before, PAGES);
}

int main(void)
{
    exos_on_fault(vm_on_fault);
    vm_map(memory, PAGES, VM_WRITE);
    touch_all();
    protections();
    faults();
    exit(0);
}
