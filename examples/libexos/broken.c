/* Preconditions that are broken. Environment 0 tells what it is answered; each of the others breaks one by which it dies, ends or waits
   for ever. */
#include "exos.h"

enum { NOBODYS = 390, NO_PAGE = 0xffff, WORD = 77 };
static void *const here = (void *)0x00600000;
static unsigned char stack[512] __attribute__((aligned(8)));
static struct thread thread;

static void memory_answers(void)
{
    char *outside = (char *)0x500000, *page = (char *)VM_BASE;
    vm_unmap(outside, 1);
    vm_clean(outside);
    printf("outside: protect %d, dirty %d, touch %d, lent %d\n", vm_protect(outside, 1, VM_READ), vm_is_dirty(outside), vm_touch(outside, 1, 0),
           (int)vm_lend(outside, WORD, 0));
    vm_map(page, 1, VM_READ);
    printf("to be read alone: touched for a store %d, for a load %d\n", vm_touch(page, 1, 1), vm_touch(page, 1, 0));
    printf("nobody's: backup %d, given %u, copy %d\n", revoke_backup(NOBODYS), revoke_give(NOBODYS), (int)revoke_copy_of(NOBODYS));
}

static void heap_answers(void)
{
    static unsigned char memory[64] __attribute__((aligned(8)));
    heap_begin(memory, 8);
    void *none = malloc(1);
    heap_begin(memory, sizeof memory);
    void *piece = malloc(8);
    free(piece);
    void *again = realloc(piece, 8), *other;
    unsigned twice = 0;
    while ((other = malloc(8)) != 0)
        twice += other == again;
    printf("a heap of 8 bytes: %d, a piece that was given back is had again: %u\n", none != 0, twice);
}

static void text_answers(void)
{
    char over[] = "abcdef", moved[] = "abcdef", small[4];
    memcpy(over + 4, over, 2);
    memcpy(over + 1, over, 5);
    memmove(moved + 1, moved, 5);
    int cut = snprintf(small, sizeof small, "%s", moved), counted = snprintf(0, 0, "%u", 12345u);
    const char *volatile unknown = "%q|%"; /* the compiler would say so */
#pragma GCC diagnostic push
#pragma GCC diagnostic ignored "-Wformat-nonliteral"
#pragma GCC diagnostic ignored "-Wformat-security"
    printf("moved %s and not %s, %d are %s, %d, ", moved, over, cut, small, counted);
    printf(unknown);
#pragma GCC diagnostic pop
    printf(", no such character %d\n", strchr(moved, 'z') != 0);
}

static void other_answers(void)
{
    struct pipe pipe, none = {0, 0};
    unsigned early = stride_next();
    for (unsigned env = 0; env < 16; env++)
        stride_add(env, 1);
    printf("stride: %u before there is a client, %d for the seventeenth\n", early, stride_add(16, 1));
    printf("pipe: no such page %d and %d, ", pipe_make(&pipe, here, NO_PAGE, WORD), pipe_open(&pipe, here, NO_PAGE, WORD));
    pipe_make(&pipe, here, NOBODYS, WORD);
    ((volatile unsigned *)here)[1] = 1; /* the reader has read what wasn't written */
    printf("read before it is written %d, not open %d\n", pipe_write(&pipe, "a", 1), pipe_read(&none, stack, 1));
    printf("link: sent before it is open %d\n", link_send("a", 1));
}

static void hold_for_ever(void)
{
    static struct lock lock;
    lock_take(&lock);
    lock_take(&lock);
}

static unsigned endless_length(void)
{
    vm_map((void *)VM_BASE, 1, VM_WRITE);
    memset((void *)VM_BASE, 'x', AEGIS_PAGE);
    return strlen((char *)VM_BASE);
}

static void deeper(void *argument)
{
    static volatile int is_deep_enough;
    volatile char room[256];
    room[0] = 1;
    if (!is_deep_enough)
        deeper(argument);
    room[1] = room[0];
}

/* The page below the thread's stack isn't mapped. */
static void overrun_stack(void)
{
    vm_map((char *)VM_BASE + AEGIS_PAGE, 1, VM_WRITE);
    thread_make(&thread, deeper, 0, (char *)VM_BASE + AEGIS_PAGE, AEGIS_PAGE);
    thread_yield();
}

static void touch_three(void)
{
    vm_most_frames = 2;
    vm_map((void *)VM_BASE, 3, VM_WRITE);
    for (unsigned page = 0; page < 3; page++)
        ((volatile char *)VM_BASE)[page * AEGIS_PAGE] = 1;
}

static void close_unread(void)
{
    struct pipe pipe;
    pipe_make(&pipe, here, NOBODYS + 1, WORD);
    pipe_close(&pipe);
}

static unsigned same(unsigned argument)
{
    return argument;
}

int main(void)
{
    struct pipe none = {0, 0};
    exos_on_fault(vm_on_fault);
    switch (aegis_self()) {
    case 0: memory_answers(), heap_answers(), text_answers(), other_answers(); break;
    case 1: thread_exit(); /* the only one ends the program */
    case 2: hold_for_ever(); break;
    case 3: link_receive(stack, 1, 0); break; /* before link_open */
    case 4: endless_length(); break;
    case 5: heap_begin(stack + 1, 256); break;
    case 6: rpc_serve_trusted(0, same);
    case 7: rpc_open_trusted(), rpc_ask_trusted(6, 1); break; /* another's server */
    case 8: pipe_write(&none, "a", 1); break; /* before pipe_make */
    case 9: close_unread(); break;
    case 10: overrun_stack(); break;
    default: touch_three();
    }
    exit(0);
}
