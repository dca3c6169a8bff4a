/* A name server: it tells where it is when it is looked for, enters where names are, and answers where a name is. */
#include "frames.h"

static unsigned names[MACHINES];

static unsigned machine_of(unsigned name)
{
    for (unsigned machine = 0; machine < MACHINES; machine++)
        if (names[machine] == name)
            return machine;
    return NOWHERE;
}

int main(void)
{
    struct frame frame;
    unsigned self = NOWHERE;
    if (!claim_frames())
        return 1;
    for (;;) {
        if (!next_frame(&frame, ~0u))
            continue;
        unsigned sender = frame.from[LAST];
        if (frame.letter == YOU)
            self = frame.machine;
        else if (frame.letter == FIND)
            send_frame(self, sender, HERE, self, 0);
        else if (frame.letter == ENTER && frame.machine < MACHINES) {
            names[frame.machine] = frame.name;
            send_frame(self, sender, NUMBER, frame.machine, frame.name);
        } else if (frame.letter == ASK)
            send_frame(self, sender, NUMBER, machine_of(frame.name), frame.name);
    }
}
