/* The part of a server that runs seldom: it opens, it waits, and it looks for a slot. calls.s and words.s have the rest.

   A call is a synchronous transfer: the client's slot is the server's until it gives it back, and so it works in the client's
   time. It drops the slot, which is the client's again, accepts this client alone, and answers by an asynchronous transfer of
   the rest of the slice. So the client may call again at once, and nobody else comes between the accept and the answer.
   At its own next turn the server accepts the others, and from the turn after that on all. */
#include "serving.h"

void aegis_called(void);

static unsigned served;
static unsigned char own[AEGIS_SLOTS_AT_MOST]; /* the slots that the server held when it opened */

/* Waits for a call: of some clients, and from the next turn on of all. */
__attribute__((noreturn)) static void wait_for(unsigned clients)
{
    aegis_accept(clients);
    for (;;) {
        aegis_yield();
        aegis_accept(served);
    }
}

/* The server's next turn after it answered a client, who comes last. */
__attribute__((noreturn, used)) void aegis_answered_to(unsigned client)
{
    unsigned others = served & ~(1u << client);
    wait_for(others ? others : served);
}

/* Gives a client's slot back where it isn't the one that it had last. It may have none any more: the client is dead, or a
   server that was asked in turn has given the slot back already. */
__attribute__((used)) void aegis_give_back(unsigned client)
{
    unsigned self = aegis_self(), slots = aegis_query(AEGIS_SLOTS, 0).value;
    for (unsigned slot = 0; slot < slots; slot++)
        if (!own[slot] && aegis_query(AEGIS_HOLDER, slot).value == self) {
            aegis_drop(slot);
            AEGIS_SLOT_OF[client] = slot;
            return;
        }
    AEGIS_SLOT_OF[client] = AEGIS_NO_SLOT_KNOWN;
}

/* Notes which slots are its own, and which slot each of the others holds. */
static void note_slots(void)
{
    unsigned self = aegis_self(), slots = aegis_query(AEGIS_SLOTS, 0).value;
    for (unsigned env = 0; env < AEGIS_ENVIRONMENTS; env++)
        AEGIS_SLOT_OF[env] = AEGIS_NO_SLOT_KNOWN;
    for (unsigned slot = 0; slot < slots; slot++) {
        unsigned holder = aegis_query(AEGIS_HOLDER, slot).value;
        own[slot] = holder == self;
        if (holder < AEGIS_ENVIRONMENTS)
            AEGIS_SLOT_OF[holder] = slot;
    }
}

void aegis_open(unsigned clients, void (*entry)(void), unsigned answer_of)
{
    served = clients;
    AEGIS_ANSWER_OF = answer_of;
    AEGIS_STACK_TOP = AEGIS_STACK_BEGIN;
    note_slots();
    aegis_context(AEGIS_SYNCHRONOUS_CALLS, entry);
    wait_for(clients);
}

void aegis_serve(unsigned clients, unsigned (*answer)(unsigned client, unsigned argument))
{
    aegis_open(clients, aegis_called, (unsigned)answer);
}
