/* What calls.c and words.c have in common: where a server keeps what its entries need, and how it waits. */
#ifndef AEGIS_SERVING_H
#define AEGIS_SERVING_H
#include "aegis.h"

/* Words in the upper half of the context page, in reach of $0, so that an entry needs one instruction for each. */
#define AEGIS_ANSWER_OF (*(volatile unsigned *)0x1f00) /* the function that answers */
#define AEGIS_ENTRY (*(volatile unsigned *)0x1f04)     /* a client's entry that is named: 0 none, 1 of calls.s, 2 of words.s */
#define AEGIS_STACK_TOP (*(volatile unsigned *)0x1f08) /* where the server's stack begins at each call */
#define AEGIS_SLOT_OF ((volatile signed char *)0x1f20) /* of each environment the slot that it held last, or -1 */

enum { AEGIS_ENVIRONMENTS = 32, AEGIS_SLOTS_AT_MOST = 64, AEGIS_NO_SLOT_KNOWN = -1, AEGIS_STACK_BEGIN = 0x7ffefff0 };

/* Opens a server: its entry for synchronous calls, the function that answers, and whose calls it takes, a bit for each. */
__attribute__((noreturn)) void aegis_open(unsigned clients, void (*entry)(void), unsigned answer_of);

#endif
