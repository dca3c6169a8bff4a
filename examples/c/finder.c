/* A client of the name server: it finds the server, enters its own name, asks for another's until that is entered too, and says
   where that is. */
#include "frames.h"

enum { PATIENCE = 2000 /* ticks */ };

static unsigned self;
static struct frame answer;

/* Waits for a frame of this letter, which is the answer then. */
static int received(enum letter letter)
{
    unsigned began = aegis_clock(), waited = 0;
    while (waited < PATIENCE && next_frame(&answer, PATIENCE - waited)) {
        if (answer.letter == letter)
            return 1;
        waited = aegis_clock() - began;
    }
    return 0;
}

/* Sends a frame, and waits for the answer, which has this letter. */
static int answered(unsigned to, enum letter letter, unsigned machine, unsigned name, enum letter due)
{
    send_frame(self, to, letter, machine, name);
    return received(due);
}

/* Where this name is, once it is entered. A machine that doesn't answer wasn't the server, which is found anew. */
static unsigned found(unsigned own, unsigned sought)
{
    for (;;) {
        if (!answered(EVERYWHERE, FIND, NOWHERE, 0, HERE))
            continue;
        unsigned server = answer.machine;
        if (!answered(server, ENTER, self, own, NUMBER))
            continue;
        while (answered(server, ASK, NOWHERE, sought, NUMBER))
            if (answer.machine != NOWHERE)
                return answer.machine;
    }
}

int main(void)
{
    if (!claim_frames() || !received(YOU))
        return 1;
    self = answer.machine;
    unsigned sought = answer.sought;
    unsigned machine = found(answer.name, sought);
    aegis_put(&sought, sizeof sought);
    print(" is machine ");
    print_number(machine);
    print("\n");
    return 0;
}
