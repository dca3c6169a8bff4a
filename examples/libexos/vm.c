/* Virtual memory of the program's own: a page table, of which the kernel's bindings are a cache. The kernel says which page is whose,
   and binds it; here stands which addresses are memory, when a page comes there, and what is known to be dirty. */
#include "exos.h"

/* An entry: the page's number in bits 31:12, and these. A page is bound to be written once it is dirty, and not before. */
enum { LIVE = 1, DIRTY = 2, MAPPED = 4, MAY_READ = 8, MAY_WRITE = 16, RIGHTS = MAPPED | MAY_READ | MAY_WRITE };
static unsigned table[VM_PAGES];
unsigned vm_frames, vm_most_frames;
#define address_of(entry) ((void *)(VM_BASE + (unsigned)((entry) - table) * AEGIS_PAGE))

static unsigned *entry_of(const void *address)
{
    unsigned place = ((unsigned)address - VM_BASE) / AEGIS_PAGE;
    return place < VM_PAGES ? &table[place] : 0;
}

static unsigned bits_of(enum vm_rights rights)
{
    return MAPPED | (rights & VM_READ ? MAY_READ : 0) | (rights == VM_WRITE ? MAY_WRITE : 0);
}

/* Whether these pages all lie in the memory that the table is for. */
static int is_inside(const void *address, unsigned pages)
{
    unsigned first = ((unsigned)address - VM_BASE) / AEGIS_PAGE;
    return (unsigned)address % AEGIS_PAGE == 0 && first < VM_PAGES && pages <= VM_PAGES - first;
}

/* Makes pages of addresses memory, which get their pages when they are touched: -1 where the address is none of the table's.
   Asks the kernel nothing: 23 ticks, and 11 for each page. */
int vm_map(void *address, unsigned pages, enum vm_rights rights)
{
    if (!is_inside(address, pages))
        return -1;
    for (unsigned *entry = entry_of(address); pages > 0; pages--, entry++)
        if (!(*entry & MAPPED))
            *entry = bits_of(rights);
    return 0;
}

/* Gives the pages up, and what is in them. A free of each that was touched, 47 ticks for one. */
void vm_unmap(void *address, unsigned pages)
{
    if (!is_inside(address, pages))
        return;
    for (unsigned *entry = entry_of(address); pages > 0; pages--, entry++) {
        if (*entry & LIVE && aegis_free(*entry / AEGIS_PAGE) == AEGIS_OK)
            vm_frames--;
        *entry = 0;
    }
}

/* Binds a page as its entry says: to be written if it is dirty. */
static int install(unsigned *entry)
{
    return aegis_bind(address_of(entry), *entry / AEGIS_PAGE, (*entry & DIRTY) != 0, 0) == AEGIS_OK;
}

/* Gives pages other rights. What is there stays. An unbind, or a bind, of each page that was touched: 46 ticks for
   one, 76 with a bind. */
int vm_protect(void *address, unsigned pages, enum vm_rights rights)
{
    if (!is_inside(address, pages))
        return -1;
    for (unsigned *entry = entry_of(address); pages > 0; pages--, entry++) {
        unsigned before = *entry;
        *entry = (before & ~RIGHTS & ~(rights == VM_WRITE ? 0 : DIRTY)) | bits_of(rights);
        if (!(before & LIVE))
            continue;
        if (rights == VM_NONE)
            aegis_unbind(address_of(entry));
        else if (before & DIRTY && rights != VM_WRITE)
            install(entry);
    }
    return 0;
}

/* Whether the page was stored to since it was mapped or cleaned. Asks nothing: 21 ticks. */
int vm_is_dirty(const void *address)
{
    const unsigned *entry = entry_of(address);
    return entry && *entry & DIRTY;
}

/* Lets the next store be noted again: a bind, 42 ticks. */
void vm_clean(void *address)
{
    unsigned *entry = entry_of(address);
    if (entry && *entry & DIRTY) {
        *entry &= ~DIRTY;
        install(entry);
    }
}

/* A page for an entry that has none. It yields while the kernel asks another environment for one. */
static int fill(unsigned *entry)
{
    struct aegis_answer page = {AEGIS_NONE_FREE, 0};
    if (!vm_most_frames || vm_frames < vm_most_frames)
        while ((page = aegis_alloc(AEGIS_ANY, 0, 0)).code == AEGIS_AGAIN)
            aegis_yield();
    if (page.code)
        return 0;
    vm_frames++;
    *entry = (*entry & RIGHTS) | LIVE | page.value * AEGIS_PAGE;
    return 1;
}

/* Brings a page to where an access of this kind finds it: 1, or 0 where it mayn't, where no page is free, and where the page was
   taken without a copy. A binding that another one replaced is made again. */
static int serve(unsigned *entry, int stores)
{
    if (!(*entry & (stores ? MAY_WRITE : MAY_READ)) || (!(*entry & LIVE) && !fill(entry)))
        return 0;
    if (stores)
        *entry |= DIRTY;
    if (install(entry))
        return 1;
    unsigned copy = revoke_copy_of(*entry / AEGIS_PAGE);
    *entry = (*entry & (RIGHTS | DIRTY)) | (copy == AEGIS_ANY ? 0 : LIVE | copy * AEGIS_PAGE);
    return copy != AEGIS_ANY && install(entry);
}

/* The handler of its exceptions, for exos_on_fault or a handler that is named there. All in all 182 ticks for a binding that was
   lost and 181 for a first store, each with a bind, and 209 for a page that wasn't there, with an alloc and a bind. */
int vm_on_fault(struct exos_frame *frame)
{
    unsigned code = exos_code(frame), *entry = entry_of((void *)frame->address);
    return entry && *entry & MAPPED && code <= EXOS_TLBS && serve(entry, code != EXOS_TLBL);
}

/* Sees that a kernel call finds these bytes: put, send, claim and handler read through bindings alone, and raise no exception.
   0, or -1 as for vm_on_fault. An address that isn't the table's is left to the call. A bind of each page: 90 ticks for one. */
int vm_touch(const void *address, unsigned length, int stores)
{
    for (unsigned at = (unsigned)address & ~(AEGIS_PAGE - 1); at < (unsigned)address + length; at += AEGIS_PAGE) {
        unsigned *entry = entry_of((void *)at);
        if (entry && !serve(entry, stores))
            return -1;
    }
    return 0;
}

/* Lets others bind a page who present a word: its number, or AEGIS_ANY. A bind, a recap: 97 ticks. */
unsigned vm_lend(void *address, unsigned long long read, unsigned long long write)
{
    unsigned *entry = entry_of(address);
    int is_lent = entry && serve(entry, write != 0) && aegis_recap(*entry / AEGIS_PAGE, read, write) == AEGIS_OK;
    return is_lent ? *entry / AEGIS_PAGE : AEGIS_ANY;
}
