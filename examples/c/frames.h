/* The frames of a name server and its clients (names.c, finder.c), on machines that a wire joins. examples/wire/ has the same in
   assembly, and speaks with these. */
#ifndef FRAMES_H
#define FRAMES_H

#include "aegis.h"

enum letter {
    YOU = 'y',   /* you are this machine, and this is your name; behind it stands the name that you look for */
    FIND = 'f',  /* where is the name server? */
    HERE = 'h',  /* it is on this machine */
    ENTER = 'e', /* enter that the name is at this machine */
    ASK = 'a',   /* where is the name? */
    NUMBER = 'n' /* the name is at this machine */
};

enum { NOWHERE = 255, EVERYWHERE = 255, MACHINES = 8 };

/* Machine N has the address 02:00:00:00:00:N, and a wire looks at the last byte alone. */
struct frame {
    unsigned char to[6], from[6];
    unsigned short kind;
    unsigned char letter, machine;
    unsigned name, sought; /* four letters each; the second only in what the schedule tells */
};

enum { KIND = 0xb688 /* 88 b6 */, FRAME = 20 /* bytes, without the second name */, LAST = 5 /* byte of an address */ };

static struct aegis_buffer *const ring = (struct aegis_buffer *)0x00500000;

/* Claims the frames of this kind. */
static inline int claim_frames(void)
{
    static const struct aegis_atom filter[] __attribute__((aligned(32))) = {
        {.offset = 12, .width = 2, .mask = 0xffff, .value = 0x88b6},
        {.offset = FRAME - 4, .width = 4, .mask = 0, .value = 0},
    };
    struct aegis_answer page = aegis_alloc(AEGIS_ANY, 0, 0);
    if (page.code || aegis_bind(ring, page.value, 1, 0))
        return 0;
    return aegis_claim(filter, 2, page.value).code == AEGIS_OK;
}

/* Copies the next frame and empties its buffer; or answers 0 once so many ticks are over. */
static inline int next_frame(struct frame *frame, unsigned ticks)
{
    static unsigned count;
    volatile struct aegis_buffer *buffer = &ring[count % 2];
    for (unsigned began = aegis_clock(); !buffer->length; aegis_yield())
        if (aegis_clock() - began >= ticks)
            return 0;
    for (unsigned i = 0; i < sizeof *frame; i++)
        ((unsigned char *)frame)[i] = buffer->bytes[i];
    buffer->length = 0;
    count++;
    return 1;
}

/* Sends a frame from one machine to another. */
static inline void send_frame(unsigned from, unsigned to, enum letter letter, unsigned machine, unsigned name)
{
    static struct frame frame __attribute__((aligned(32))) = {.to = {2}, .from = {2}, .kind = KIND};
    frame.to[LAST] = to;
    frame.from[LAST] = from;
    frame.letter = letter;
    frame.machine = machine;
    frame.name = name;
    aegis_send(&frame, FRAME);
}

#endif
