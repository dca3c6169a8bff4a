/* What the functions of exos.h take that keep pages, threads and others' slices, in ticks. costs_bytes.c has those that move bytes. */
#include "ash.h"
#include "cost.h"

static unsigned *const memory = (unsigned *)VM_BASE;
static struct thread thread[2];
static unsigned char stack[2][512];
static struct lock lock;
static volatile unsigned kept;

static int pass(struct exos_frame *frame)
{
    exos_skip(frame);
    return 1;
}

static unsigned left; /* when a thread ended */

static void leave(void *argument)
{
    (void)argument;
    left = aegis_clock();
}

static void nothing(void)
{
}

static void loop(void *argument)
{
    (void)argument;
    for (;;)
        thread_yield();
}

__attribute__((noinline)) static void memory_costs(void)
{
    exos_on_fault(vm_on_fault);
    COST("vm_map, of 8 pages", vm_unmap(memory, 8), vm_map(memory, 8, VM_WRITE));
    COST("a load where no page is yet", , kept = memory[1024 * turn]);
    COST("a first store", , memory[1024 * turn] = 1);
    COST("a load through a lost binding", aegis_unbind(memory), kept = memory[0]);
    COST("vm_clean", memory[0] = 1, vm_clean(memory));
    COST("vm_is_dirty", , kept = vm_is_dirty(memory));
    COST("vm_protect, a dirty page to be read alone", vm_protect(memory, 1, VM_WRITE); memory[0] = 1, vm_protect(memory, 1, VM_READ));
    COST("vm_protect, and to be written again", vm_protect(memory, 1, VM_READ), vm_protect(memory, 1, VM_WRITE));
    COST("vm_touch, a page", , vm_touch(memory, 4, 0));
    COST("vm_lend", , kept = vm_lend(memory, 1, 0));
    COST("vm_unmap, a page", vm_map(memory, 1, VM_WRITE); memory[0] = 1, vm_unmap(memory, 1));
    COST("revoke_asked", , kept = revoke_asked());
    COST("revoke_give", kept = aegis_alloc(AEGIS_ANY, 0, 0).value, revoke_give(kept));
    COST("revoke_copy_of, where none was taken", , kept = revoke_copy_of(1));
    kept = aegis_alloc(AEGIS_ANY, 0, 0).value;
    COST("revoke_backup", , revoke_backup(kept));
    COST("exos_on_fault", , exos_on_fault(vm_on_fault));
}

__attribute__((noinline)) static void processor_costs(void)
{
    for (unsigned turn = 0; turn < 2; turn++) {
        thread_make(&thread[0], leave, 0, stack[0], sizeof stack[0]);
        thread_yield();
        left = aegis_clock() - left;
    }
    printf("%5u thread_exit, until the other of two goes on\n", left - empty);
    COST("thread_make", , thread_make(&thread[turn], loop, 0, stack[turn], sizeof stack[turn]));
    thread_yield();
    COST("thread_yield, once around three", , thread_yield());
    COST("lock_take", lock_drop(&lock), lock_take(&lock));
    lock_drop(&lock);
    COST("lock_drop", lock_take(&lock), lock_drop(&lock));
    stride_add(1, 3);
    COST("stride_add, of 3", , stride_add(2 + turn, 2 - turn));
    COST("stride_next, of 3", , kept = stride_next());
    COST("rpc_open_trusted", , rpc_open_trusted());
    COST("link_open", , kept = link_open(0, turn, 1000, 1));
    COST("threads_begin", , threads_begin());
    COST("exos_on_slices", , exos_on_slices(nothing, nothing));
}

__attribute__((noinline)) static void handler_costs(void)
{
    static const unsigned words[] __attribute__((aligned(8))) = {ASH_LI(8, 1), ASH_END};
    static const struct aegis_atom filter[] __attribute__((aligned(32))) = {{.offset = 12, .width = 2, .mask = 0xffff, .value = 0x88ba}};
    static struct exos_frame frame;
    unsigned page = aegis_alloc(AEGIS_ANY, 0, 0).value, claim = aegis_claim(filter, 1, page).value;
    COST("ash_load, of two words", , ash_load(claim, words));
    COST("exos_code", , kept = exos_code(&frame));
    COST("exos_skip", , exos_skip(&frame));
}

/* The report says when it ends, and the code when it called exit. */
int main(void)
{
    cost_begin();
    exos_on_fault(pass);
    COST("a BREAK, to C and back", , __asm__ volatile("break"));
    memory_costs();
    handler_costs();
    processor_costs();
    exit(aegis_clock());
}
