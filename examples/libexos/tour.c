/* Four machines on a wire: a server, the router before it, and two clients, which a packet of the schedule numbers 0 to 3 (its third
   letter). A client knows the router alone, and the server answers nobody else. Frames that a ring lost are sent again. */
#include "exos.h"

enum { KIND = 0x88b9, SERVER = 0, ROUTER = 1, QUESTIONS = 5, PATIENCE = 3000, SIZE = 60 };

struct frame {
    unsigned char to[6], from[6];
    unsigned short kind; /* the highest byte first */
    unsigned char target, origin; /* the machines at the ends, between which the router is */
    unsigned number, answer;
    unsigned char unused[SIZE - 24];
};

static struct aegis_buffer *const told = (struct aegis_buffer *)0x00700000, *const ring = (struct aegis_buffer *)0x00702000;
static struct frame leaving __attribute__((aligned(64)));
static unsigned turn, self;

/* A page with the two buffers of a claim: packets with this value, of two bytes, at an offset and of a kind. */
static void claim(struct aegis_buffer *page, unsigned offset, unsigned value, unsigned kind)
{
    static struct aegis_atom filter[2] __attribute__((aligned(32)));
    struct aegis_answer free = aegis_alloc(AEGIS_ANY, 0, 0);
    filter[0] = (struct aegis_atom){.offset = offset, .width = 2, .mask = 0xffff, .value = value};
    filter[1] = (struct aegis_atom){.offset = 12, .width = 2, .mask = 0xffff, .value = kind};
    if (free.code || aegis_bind(page, free.value, 1, 0) || aegis_claim(filter, kind ? 2 : 1, free.value).code)
        exit(1);
}

static void send(unsigned char next, unsigned char target, unsigned char origin, unsigned number, unsigned answer)
{
    leaving = (struct frame){{2, 0, 0, 0, 0, next}, {2, 0, 0, 0, 0, self}, htons(KIND), target, origin, number, answer, {0}};
    aegis_send(&leaving, SIZE);
}

/* The next frame for this machine, or false where none is there. Its bytes are the sender's word, and what they are is looked at. */
static int receive(struct frame *frame)
{
    volatile struct aegis_buffer *buffer = &ring[turn % 2];
    if (!buffer->length)
        return 0;
    memcpy(frame, (void *)buffer->bytes, sizeof *frame);
    int is_whole = buffer->length == SIZE;
    buffer->length = 0;
    turn++;
    return is_whole;
}

static void route(void)
{
    struct frame frame;
    for (;;)
        if (receive(&frame) && frame.target != ROUTER && frame.target < 4)
            send(frame.target, frame.target, frame.origin, frame.number, frame.answer);
        else
            aegis_yield();
}

static void serve(void)
{
    struct frame frame;
    for (;;)
        if (receive(&frame) && frame.from[5] == ROUTER)
            send(ROUTER, frame.origin, SERVER, frame.number, frame.number * frame.number);
        else
            aegis_yield();
}

static void ask(unsigned number)
{
    struct frame frame;
    for (;;) {
        send(ROUTER, SERVER, self, number, 0);
        for (unsigned since = aegis_clock(); aegis_clock() - since < PATIENCE; aegis_yield())
            if (receive(&frame) && frame.origin == SERVER && frame.number == number) {
                printf("%u: %u\n", number, frame.answer);
                return;
            }
    }
}

int main(void)
{
    claim(told, 0, 0x6d61, 0);
    while (!((volatile struct aegis_buffer *)told)->length)
        aegis_yield();
    self = told->bytes[2] - '0';
    claim(ring, 4, self, KIND);
    if (self == SERVER)
        serve();
    if (self == ROUTER)
        route();
    for (unsigned number = 1; number <= QUESTIONS; number++)
        ask(10 * self + number);
    exit(0);
}
