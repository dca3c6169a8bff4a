/* Memory that the program pages itself: 300 pages, more than the kernel has bindings for; which are dirty; a heap over them; a put out of
   a page that isn't bound; and an access that its rights forbid, which is its death. */
#include "exos.h"

enum { PAGES = 300, HEAP = 64 };
static unsigned *const memory = (unsigned *)VM_BASE;
static unsigned misses;

static int counted(struct exos_frame *frame)
{
    misses++;
    return vm_on_fault(frame);
}

static unsigned *word_of(unsigned page)
{
    return memory + page * (AEGIS_PAGE / 4);
}

static unsigned dirty_pages(void)
{
    unsigned dirty = 0;
    for (unsigned page = 0; page < PAGES; page++)
        dirty += vm_is_dirty(word_of(page));
    return dirty;
}

static void heap(void)
{
    heap_begin(word_of(PAGES), HEAP * AEGIS_PAGE);
    unsigned pieces = 0, *last = 0, *next;
    while ((next = malloc(1000)) != 0) {
        *next = (unsigned)last; /* a list of all pieces */
        last = next;
        pieces++;
    }
    printf("the heap has %u pieces", pieces);
    for (; last; last = next) {
        next = (unsigned *)*last;
        free(last);
    }
    printf(", and then one of %u bytes\n", malloc(250000) ? 250000 : 0);
}

int main(void)
{
    unsigned sum = 0;
    exos_on_fault(counted);
    if (vm_map((void *)0x500000, 1, VM_WRITE) != -1 || vm_map(memory, PAGES + HEAP, VM_WRITE))
        return 1;
    for (unsigned page = 0; page < PAGES; page += 2)
        *word_of(page) = page;
    for (unsigned page = 0; page < PAGES; page++)
        sum += *word_of(page);
    printf("%u pages, %u dirty, sum %u, %u misses\n", vm_frames, dirty_pages(), sum, misses);
    for (unsigned page = 0; page < 10; page++)
        vm_clean(word_of(page));
    *word_of(4) = 1;
    printf("%u dirty after ten were cleaned and one was stored to\n", dirty_pages());
    heap();
    unsigned *text = word_of(0);
    text[0] = 0x0a6b6f; /* "ok\n" */
    vm_unmap(word_of(1), 1);
    vm_map(word_of(1), 1, VM_READ);
    for (unsigned page = 256; page < PAGES; page++)
        (void)*(volatile unsigned *)word_of(page); /* the bindings of the first pages are gone, and a put sees bindings alone */
    unsigned refused = aegis_put(text, 3);
    printf("a put is answered %u, and when the page is touched ", refused);
    print_out();
    vm_touch(text, 3, 0);
    aegis_put(text, 3);
    vm_protect(word_of(2), 1, VM_READ);
    printf("%u stays, and", *word_of(2));
    print_out();
    *word_of(2) = 1; /* not allowed: nobody deals with it, and it is death */
    return 0;
}
