/* How both sides of rpc.s begin. */
#include "exos.h"

#define RPC_ANSWER_OF (*(volatile unsigned *)0x1e48)
#define RPC_STACK_TOP (*(volatile unsigned *)0x1e4c)
#define RPC_CLIENT_BIT (*(volatile unsigned *)0x1e50)

void rpc_answered(void), rpc_called(void);

/* Names the entry at which answers come. A context: 10 ticks. Who asks without it waits for ever. */
void rpc_open_trusted(void)
{
    aegis_context(AEGIS_SYNCHRONOUS_CALLS, rpc_answered);
}

/* Answers one client for ever. It needs no slot: it works in its client's, and hands that back with the answer. */
void rpc_serve_trusted(unsigned client, unsigned (*answer)(unsigned argument))
{
    RPC_ANSWER_OF = (unsigned)answer;
    RPC_STACK_TOP = 0x7ffefff0;
    RPC_CLIENT_BIT = 1u << client;
    aegis_context(AEGIS_SYNCHRONOUS_CALLS, rpc_called);
    aegis_accept(1u << client);
    for (;;)
        aegis_yield();
}
