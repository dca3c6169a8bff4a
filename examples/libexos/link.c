/* Messages between machines on a wire, each once and in order. A wire loses nothing, but rings do: so the sender keeps a message until
   its answer comes, and sends it again. One message is under way at a time, and its number is one bit more than enough. */
#include "exos.h"

enum { KIND = 0x88b7, DATA = 1, ANSWER = 2, HEAD = 20, SHORTEST = 20 };

struct packet {
    unsigned char to[6], from[6];
    unsigned short kind; /* the highest byte first */
    unsigned char what, number;
    unsigned short length, unused;
    unsigned char bytes[LINK_MOST];
};

static struct aegis_buffer *const ring = (struct aegis_buffer *)0x0fff0000;
static struct packet leaving __attribute__((aligned(2048)));
static unsigned char sent, received; /* the numbers of the next message that way */
static unsigned turn, patience, most_tries;
static struct packet waiting; /* a message that came while another was being sent */
static int is_waiting;

/* Opens the link from this machine to another. A message is sent again after so many ticks, and given up after so many tries. An
   alloc, a bind, a claim, 1,608 ticks: 0, or -1. */
int link_open(unsigned char self, unsigned char peer, unsigned ticks, unsigned tries)
{
    static struct aegis_atom filter[] __attribute__((aligned(64))) = {
        {.offset = 12, .width = 2, .mask = 0xffff, .value = KIND},
        {.offset = 11, .width = 1, .mask = 0xff, .value = 0},
        {.offset = SHORTEST - 4, .width = 4, .mask = 0, .value = 0},
    };
    struct aegis_answer page = aegis_alloc(AEGIS_ANY, 0, 0);
    filter[1].value = peer;
    leaving = (struct packet){.to = {2, 0, 0, 0, 0, peer}, .from = {2, 0, 0, 0, 0, self}, .kind = htons(KIND)};
    patience = ticks;
    most_tries = tries;
    if (page.code || aegis_bind(ring, page.value, 1, 0) || aegis_claim(filter, 3, page.value).code)
        return -1;
    return 0;
}

static void send(unsigned char what, unsigned char number, unsigned length)
{
    leaving.what = what;
    leaving.number = number;
    leaving.length = length;
    aegis_send(&leaving, HEAD + length);
}

/* Takes the next packet, if one is there. A message that is due is kept and answered, one that came before is answered again. It says
   whether the packet answers this message. The length is the peer's word, and the buffer's says how much there is. */
static int look(int number)
{
    volatile struct aegis_buffer *buffer = &ring[turn % 2];
    const struct packet *packet = (const struct packet *)ring[turn % 2].bytes;
    int answers = 0;
    if (!buffer->length)
        return 0;
    if (packet->what == ANSWER)
        answers = packet->number == number;
    else if (packet->what == DATA && packet->length <= LINK_MOST && packet->length + (unsigned)HEAD <= buffer->length) {
        if (packet->number == received && !is_waiting) {
            memcpy(&waiting, packet, HEAD + packet->length);
            is_waiting = 1;
            received++;
        }
        if (packet->number != received)
            send(ANSWER, packet->number, 0);
    }
    buffer->length = 0;
    turn++;
    return answers;
}

/* Sends up to LINK_MOST bytes, and returns when the other side has them: 0, or -1 where it never says so. A send for each try, and
   yields while it waits: 335 ticks for 100 bytes, beside those. */
int link_send(const void *bytes, unsigned length)
{
    if (length > LINK_MOST)
        return -1;
    for (unsigned tries = 0; tries < most_tries; tries++) {
        memcpy(leaving.bytes, bytes, length);
        send(DATA, sent, length);
        for (unsigned began = aegis_clock(); aegis_clock() - began < patience; aegis_yield())
            if (look(sent)) {
                sent++;
                return 0;
            }
    }
    return -1;
}

/* The next message, of which as much is kept as there is room for: its length, or -1 where none came within so many ticks.
   A send for its answer, and yields while it waits: 599 ticks for 100 bytes that are there. */
int link_receive(void *bytes, unsigned most, unsigned ticks)
{
    for (unsigned began = aegis_clock(); !is_waiting; aegis_yield()) {
        look(-1);
        if (!is_waiting && aegis_clock() - began >= ticks)
            return -1;
    }
    unsigned length = waiting.length;
    memcpy(bytes, waiting.bytes, length < most ? length : most);
    is_waiting = 0;
    return length;
}
