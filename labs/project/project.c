/* Your own library operating system: a pager, a scheduler and a link. README.md says what each has to do. You may spread it over more
   files, which this one includes. */
#include "project.h"

/* --- 1, 2. The pager --- */

void pager_begin(unsigned frames)
{
    (void)frames; /* WRITE: a handler of exceptions (exos_on_fault), which brings pages, drops pages, and gives those that are asked for */
}

/* --- 3. The scheduler --- */

void exos_end_entry(void), exos_thread_switch(void); /* slices.s: where ends of slices enter; and a switch to what exos_thread_pick says */
static struct thread first; /* what runs main */

__attribute__((used)) struct thread *exos_thread_pick(void)
{
    return EXOS_CURRENT; /* WRITE */
}

__attribute__((used)) struct thread *exos_slice_ended(void)
{
    return EXOS_CURRENT; /* WRITE */
}

__attribute__((used)) void exos_slice_started(void)
{
}

int threads_begin(void)
{
    EXOS_CURRENT = &first;
    aegis_context(AEGIS_ENDS, exos_end_entry);
    return 0;
}

/* With these registers slices.s lets it begin, and it ends where its function returns. */
void thread_add(struct thread *thread, unsigned share, void (*function)(void *), void *argument, void *stack, unsigned size)
{
    unsigned small_data;
    __asm__("move %0, $28" : "=r"(small_data));
    memset(thread, 0, sizeof *thread);
    thread->registers[4 - 1] = (unsigned)argument;
    thread->registers[28 - 1] = small_data;
    thread->registers[29 - 1] = ((unsigned)stack + size) / 8 * 8 - 16;
    thread->registers[31 - 1] = (unsigned)thread_exit;
    thread->at = (unsigned)function;
    (void)share; /* WRITE: it is one of those that have turns */
}

void thread_yield(void)
{
    aegis_yield(); /* WRITE: another thread goes on */
}

void thread_exit(void)
{
    for (;;)
        aegis_yield(); /* WRITE: it has no more turns */
}

/* --- 4. The link --- */

int link_open(unsigned char self, unsigned char peer, unsigned ticks, unsigned tries)
{
    (void)self, (void)peer, (void)ticks, (void)tries;
    return -1; /* WRITE: a page, a claim */
}

int link_send(const void *bytes, unsigned length)
{
    (void)bytes, (void)length;
    return -1; /* WRITE: until the other side has it */
}

int link_receive(void *bytes, unsigned most, unsigned ticks)
{
    (void)bytes, (void)most, (void)ticks;
    return -1; /* WRITE: the next message, answered */
}
