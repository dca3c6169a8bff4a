/* Threads of one environment, which the ends of its slices switch. The kernel knows of none of them. slices.s has where they enter. */
#include "exos.h"

void exos_end_entry(void), exos_thread_switch(void);

enum { LEAST_QUANTUM = 64 }; /* the way back from an end takes up to 60 ticks: in a shorter slice it would begin again for ever */

static struct thread first; /* what runs main */
static void (*ended)(void), (*started)(void);

static int is_late; /* the thread that runs was given the rest of another's slice */

/* Who is next, round and round, where a thread gives way. slices.s calls it, and it is never interrupted by a switch. */
__attribute__((used)) struct thread *exos_thread_pick(void)
{
    is_late = 1;
    return EXOS_CURRENT->next;
}

/* The end of a slice, in grace, right before its yield. A thread that came late has the next slice too: else one that only gives way
   could use up each slice, and the other never run. */
__attribute__((used)) struct thread *exos_slice_ended(void)
{
    int stays = is_late;
    is_late = 0;
    if (ended)
        ended();
    return stays ? EXOS_CURRENT : EXOS_CURRENT->next;
}

/* And the next start. */
__attribute__((used)) void exos_slice_started(void)
{
    if (started)
        started();
}

/* Makes main a thread, where it isn't one. */
static void name_first(void)
{
    if (!EXOS_CURRENT) {
        first.next = &first;
        EXOS_CURRENT = &first;
    }
}

/* Switches threads from here on: main is the first. -1 where slices are too short for that. A query, a context: 20 ticks. */
int threads_begin(void)
{
    if (aegis_query(AEGIS_QUANTUM, 0).value < LEAST_QUANTUM)
        return -1;
    name_first();
    aegis_context(AEGIS_ENDS, exos_end_entry);
    return 0;
}

/* Has functions called at the end of each slice, in grace, and at its next start; else as threads_begin. They run on the library's
   stack, so 2 KB are theirs. At an end in a fault handler or in this library they aren't called. 26 ticks. */
int exos_on_slices(void (*at_end)(void), void (*at_start)(void))
{
    ended = at_end;
    started = at_start;
    return threads_begin();
}

/* Makes a thread, which calls the function and ends when that returns. The stack is its own. Asks nothing: 217 ticks. */
void thread_make(struct thread *thread, void (*function)(void *), void *argument, void *stack, unsigned size)
{
    unsigned top = ((unsigned)stack + size) / 8 * 8 - 16;
    unsigned here;
    __asm__("move %0, $28" : "=r"(here));
    memset(thread, 0, sizeof *thread);
    thread->registers[4 - 1] = (unsigned)argument;
    thread->registers[28 - 1] = here;
    thread->registers[29 - 1] = top;
    thread->registers[31 - 1] = (unsigned)thread_exit;
    thread->at = (unsigned)function;
    name_first();
    EXOS_NO_SWITCH = 1;
    thread->next = EXOS_CURRENT->next;
    EXOS_CURRENT->next = thread;
    EXOS_NO_SWITCH = 0;
}

/* Lets the next thread run: 87 ticks. Where there is only one, it gives up the slice. */
void thread_yield(void)
{
    if (!EXOS_CURRENT || EXOS_CURRENT->next == EXOS_CURRENT)
        aegis_yield();
    else
        exos_thread_switch();
}

/* Ends the thread that runs; the last one ends the program. Asks nothing, and of two threads the other goes on after 97 ticks. */
void thread_exit(void)
{
    EXOS_NO_SWITCH = 1;
    name_first();
    struct thread *thread = EXOS_CURRENT, *before = thread;
    if (thread->next == thread)
        exit(0);
    while (before->next != thread)
        before = before->next;
    before->next = thread->next;
    for (;;)
        exos_thread_switch();
}

/* Waits until nobody has the lock, and takes it: 22 ticks where it is free. Who has it already waits for ever. */
void lock_take(struct lock *lock)
{
    for (;;) {
        EXOS_NO_SWITCH = 1;
        if (!lock->held)
            break;
        EXOS_NO_SWITCH = 0;
        thread_yield();
    }
    lock->held = 1;
    EXOS_NO_SWITCH = 0;
}

/* Gives it to whoever comes next: 7 ticks. Nobody looks whose it is: who drops another's lock lets a third thread in. */
void lock_drop(struct lock *lock)
{
    lock->held = 0;
}
