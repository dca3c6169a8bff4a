/* Functions that the other programs don't call, and preconditions that are broken. Environment 1 sees a page that 0 lends; 3 calls the
   server 2 without having named an entry for its answers, and waits for ever. */
#include "exos.h"

enum { PAGE = 300, SMALL = 256 };
static const unsigned long long word = 0x0123456789abcdefull;
static unsigned char memory[SMALL] __attribute__((aligned(8)));
static unsigned char stacks[2][512] __attribute__((aligned(8)));
static struct thread threads[2];
static struct lock lock;
static volatile unsigned steps;

static void heap_edges(void)
{
    unsigned char *early = malloc(1);
    heap_begin(memory, SMALL);
    memset(memory + 8, 0xee, SMALL - 16);
    heap_begin(memory, SMALL);
    unsigned char *zeros = calloc(5, 4), *text = realloc(0, 8);
    unsigned sum = 0;
    for (unsigned at = 0; at < 20; at++)
        sum += zeros[at];
    strcpy((char *)text, "seven");
    unsigned char *larger = realloc(text, 60), *none = realloc(larger, 10 * SMALL), *wrapped = calloc(0x10000, 0x10000);
    printf("heap: before it begins %d, zeros %u, %s %d, too large %d, too many %d\n", early != 0, sum, larger, larger != text, none != 0, wrapped != 0);
    free(larger);
    free(larger); /* it isn't a piece any more, nor are these */
    free(memory + SMALL);
    free(0);
    free(zeros);
    printf("all but 16 bytes again: %d, and one more: %d\n", malloc(SMALL - 16) != 0, malloc(SMALL - 15) != 0);
    printf("five letters alike: %d\n", strncmp("sevens", "seventh", 5) == 0);
}

static void owner(void *argument)
{
    (void)argument;
    lock_take(&lock);
    steps = 1;
    while (steps < 2)
        thread_yield();
    thread_exit();
}

static void waiter(void *argument)
{
    (void)argument;
    lock_take(&lock);
    steps = 3;
}

/* Nobody looks who drops a lock: main drops the one that the first thread has, and the second gets it while that lives. */
static void lock_edges(void)
{
    lock_drop(&lock);
    printf("threads: %d, ", threads_begin());
    thread_make(&threads[0], owner, 0, stacks[0], sizeof stacks[0]);
    while (steps < 1)
        thread_yield();
    thread_make(&threads[1], waiter, 0, stacks[1], sizeof stacks[1]);
    for (unsigned turn = 0; turn < 3; turn++)
        thread_yield();
    unsigned before = steps;
    lock_drop(&lock);
    while (steps < 3)
        thread_yield();
    steps = 2;
    printf("step %u while the lock is held, %u after a drop\n", before, 3u);
}

/* The page that is lent, which whoever has the word finds by trying. */
static int borrow(void)
{
    unsigned *there = (unsigned *)0x00700000, pages = aegis_query(AEGIS_PAGES, 0).value, page = 0;
    while (aegis_bind(there, page, 0, word))
        if (++page == pages) {
            page = 0;
            aegis_yield();
        }
    printf("borrowed: page %u has %u\n", page, *there);
    exit(0);
}

static void memory_edges(void)
{
    unsigned *lent = (unsigned *)VM_BASE, early = vm_lend(lent, word, 0);
    exos_on_fault(vm_on_fault);
    vm_map(lent, 1, VM_WRITE);
    *lent = 4711;
    printf("lent: %d before it is mapped, and then page %u\n", (int)early, vm_lend(lent, word, 0));
    printf("given: %u are outstanding after a page of nobody's\n", revoke_give(PAGE));
}

/* What passes over an instruction can't pass over one in a delay slot: the handler is entered again, and gives up. */
static int skipped(struct exos_frame *frame)
{
    unsigned before = frame->resume;
    exos_skip(frame);
    if (frame->resume != before)
        return 1;
    printf("an exception in a delay slot isn't passed over\n");
    exit(0);
}

static unsigned length_of(unsigned text)
{
    return strlen((char *)text);
}

int main(void)
{
    unsigned self = aegis_self();
    if (self == 1)
        return borrow();
    if (self == 2)
        rpc_serve_trusted(3, length_of);
    if (self == 3)
        exit(rpc_ask_trusted(2, (unsigned)"abc")); /* without rpc_open_trusted */
    heap_edges();
    lock_edges();
    memory_edges();
    exos_on_fault(skipped);
    __asm__ volatile(".set noreorder; b 1f; break; 1: .set reorder");
    return 1;
}
