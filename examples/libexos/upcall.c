/* Exceptions as functions in C see them. upcall.s enters here. */
#include "exos.h"

void exos_fault_entry(void);

unsigned char exos_fault_stack[4096] __attribute__((aligned(16))); /* of the program's file, so it is never missed */
static exos_handler *handler_of;

/* Has exceptions handled by a function, and by 0 not any more. It answers whether it has dealt with one: the program goes on at
   `resume` then. Else it dies of the exception, as it would without a handler. A context, 14 ticks; a BREAK to a function that passes over it,
   and back, takes 123 ticks. */
void exos_on_fault(exos_handler *handler)
{
    handler_of = handler;
    aegis_context(AEGIS_EXCEPTIONS, handler ? exos_fault_entry : 0);
}

/* The exception's code: enum exos_cause. Asks nothing: 10 ticks. */
unsigned exos_code(const struct exos_frame *frame)
{
    return frame->cause >> 2 & 0x1f;
}

/* Passes over the instruction that raised it. In a delay slot it can't: the branch would have to be done, so it does nothing. Asks
   nothing: 14 ticks. */
void exos_skip(struct exos_frame *frame)
{
    if (!(frame->cause >> 31))
        frame->resume += 4;
}

/* What upcall.s calls. Where nobody deals with it the instruction runs once more without a handler, and the kernel names its death. */
__attribute__((used)) void exos_fault(struct exos_frame *frame)
{
    if (!handler_of || !handler_of(frame))
        aegis_context(AEGIS_EXCEPTIONS, 0);
}
