/* A solution of the project: a pager with a clock, a scheduler by strides, and a link with numbers. */
#include "project.h"

/* --- The pager --- */

static void *const window = (void *)0x0f080000; /* where a page of the store is seen: no page of the region has the same VPN modulo 256 */
static struct {
    unsigned page;
    unsigned char is_here, is_dirty, is_stored, is_used;
} table[PAGES];
static unsigned most, here, hand;

static void *address_of(unsigned place)
{
    return (char *)REGION + place * AEGIS_PAGE;
}

/* Sees the page of the store that belongs to a place, as soon as there is a right to it. */
static void open_store(unsigned place)
{
    while (aegis_bind(window, STORE_FIRST + place, 1, STORE_WORD))
        aegis_yield();
}

/* The place whose page goes: the first one after the last that wasn't used since the hand was there. A page that isn't bound tells of its
   next use by a fault. */
static unsigned victim(void)
{
    for (;; hand = (hand + 1) % PAGES) {
        if (!table[hand].is_here)
            continue;
        if (!table[hand].is_used)
            return hand;
        table[hand].is_used = 0;
        aegis_unbind(address_of(hand));
    }
}

/* Gives a page back, after its bytes went to the store where that hasn't them. */
static void drop_one(void)
{
    unsigned place = victim();
    if (table[place].is_dirty) {
        open_store(place);
        aegis_bind(address_of(place), table[place].page, 0, 0);
        memcpy(window, address_of(place), AEGIS_PAGE);
        table[place].is_stored = 1;
    }
    revoke_give(table[place].page);
    table[place].is_here = table[place].is_dirty = 0;
    here--;
}

static int fill(unsigned place)
{
    struct aegis_answer page;
    if (here >= most)
        drop_one();
    while ((page = aegis_alloc(AEGIS_ANY, 0, 0)).code == AEGIS_AGAIN)
        aegis_yield();
    if (page.code)
        return 0;
    table[place].page = page.value;
    table[place].is_here = 1;
    here++;
    if (table[place].is_stored) {
        open_store(place);
        aegis_bind(address_of(place), page.value, 1, 0);
        memcpy(address_of(place), window, AEGIS_PAGE);
    }
    return 1;
}

static int on_fault(struct exos_frame *frame)
{
    unsigned place = (frame->address - REGION) / AEGIS_PAGE, code = exos_code(frame);
    if (place >= PAGES || code > EXOS_TLBS)
        return 0;
    for (unsigned asked = revoke_asked(); asked > 0; asked--, most--)
        if (here < most)
            revoke_give(AEGIS_ANY);
        else
            drop_one();
    if (!table[place].is_here && !fill(place))
        return 0;
    table[place].is_used = 1;
    table[place].is_dirty |= code != EXOS_TLBL;
    return aegis_bind(address_of(place), table[place].page, table[place].is_dirty, 0) == AEGIS_OK;
}

void pager_begin(unsigned frames)
{
    most = frames;
    exos_on_fault(on_fault);
}

/* --- The scheduler --- */

enum { THREADS = 8, STRIDE_ONE = 5040, LEAST_QUANTUM = 64 };
void exos_end_entry(void), exos_thread_switch(void);
static struct thread first;
static struct {
    struct thread *thread;
    unsigned stride, pass;
} threads[THREADS] = {{&first, STRIDE_ONE, 0}};
static unsigned count = 1;

/* The thread that runs has had its turn: the one with the lowest pass is next. */
static struct thread *turned(void)
{
    unsigned lowest = 0;
    for (unsigned at = 0; at < count; at++) {
        if (threads[at].thread == EXOS_CURRENT)
            threads[at].pass += threads[at].stride;
        if (threads[at].pass < threads[lowest].pass)
            lowest = at;
    }
    return threads[lowest].thread;
}

__attribute__((used)) struct thread *exos_thread_pick(void)
{
    return turned();
}

__attribute__((used)) struct thread *exos_slice_ended(void)
{
    return turned();
}

__attribute__((used)) void exos_slice_started(void)
{
}

int threads_begin(void)
{
    if (aegis_query(AEGIS_QUANTUM, 0).value < LEAST_QUANTUM)
        return -1;
    EXOS_CURRENT = &first;
    aegis_context(AEGIS_ENDS, exos_end_entry);
    return 0;
}

void thread_add(struct thread *thread, unsigned share, void (*function)(void *), void *argument, void *stack, unsigned size)
{
    unsigned here_gp;
    __asm__("move %0, $28" : "=r"(here_gp));
    memset(thread, 0, sizeof *thread);
    thread->registers[4 - 1] = (unsigned)argument;
    thread->registers[28 - 1] = here_gp;
    thread->registers[29 - 1] = ((unsigned)stack + size) / 8 * 8 - 16;
    thread->registers[31 - 1] = (unsigned)thread_exit;
    thread->at = (unsigned)function;
    EXOS_NO_SWITCH = 1;
    threads[count].thread = thread;
    threads[count].stride = STRIDE_ONE / share;
    threads[count].pass = threads[0].pass;
    count++;
    EXOS_NO_SWITCH = 0;
}

void thread_yield(void)
{
    exos_thread_switch();
}

void thread_exit(void)
{
    EXOS_NO_SWITCH = 1;
    for (unsigned at = 0; at < count; at++)
        if (threads[at].thread == EXOS_CURRENT)
            threads[at] = threads[--count];
    if (!count)
        exit(0);
    for (;;)
        exos_thread_switch();
}

/* --- The link --- */

enum { KIND = 0x88bb, DATA = 1, ANSWER = 2, HEAD = 20 };
struct packet {
    unsigned char to[6], from[6];
    unsigned short kind;
    unsigned char what, number;
    unsigned short length, unused;
    unsigned char bytes[LINK_MOST];
};
static struct aegis_buffer *const ring = (struct aegis_buffer *)0x0fff0000;
static struct packet leaving __attribute__((aligned(2048))), waiting;
static unsigned char sent, received;
static unsigned buffer_turn, patience, most_tries;
static int is_waiting;

int link_open(unsigned char self, unsigned char peer, unsigned ticks, unsigned tries)
{
    static struct aegis_atom filter[] __attribute__((aligned(64))) = {
        {.offset = 12, .width = 2, .mask = 0xffff, .value = KIND}, {.offset = 11, .width = 1, .mask = 0xff, .value = 0},
        {.offset = HEAD - 4, .width = 4, .mask = 0, .value = 0},
    };
    struct aegis_answer page = aegis_alloc(AEGIS_ANY, 0, 0);
    filter[1].value = peer;
    leaving = (struct packet){.to = {2, 0, 0, 0, 0, peer}, .from = {2, 0, 0, 0, 0, self}, .kind = htons(KIND)};
    patience = ticks;
    most_tries = tries;
    return page.code || aegis_bind(ring, page.value, 1, 0) || aegis_claim(filter, 3, page.value).code ? -1 : 0;
}

static void send(unsigned char what, unsigned char number, unsigned length)
{
    leaving.what = what;
    leaving.number = number;
    leaving.length = length;
    aegis_send(&leaving, HEAD + length);
}

/* Takes the next packet, and says whether it answers this message. */
static int look(int number)
{
    struct aegis_buffer *buffer = &ring[buffer_turn % 2];
    const struct packet *packet = (const struct packet *)buffer->bytes;
    int answers = 0;
    if (!*(volatile unsigned *)&buffer->length)
        return 0;
    if (packet->what == ANSWER)
        answers = packet->number == number;
    else if (packet->length <= LINK_MOST && packet->length + (unsigned)HEAD <= buffer->length) {
        if (packet->number == received && !is_waiting) {
            memcpy(&waiting, packet, HEAD + packet->length);
            is_waiting = 1;
            received++;
        }
        if (packet->number != received)
            send(ANSWER, packet->number, 0);
    }
    *(volatile unsigned *)&buffer->length = 0;
    buffer_turn++;
    return answers;
}

int link_send(const void *bytes, unsigned length)
{
    if (length > LINK_MOST)
        return -1;
    for (unsigned tries = 0; tries < most_tries; tries++) {
        memcpy(leaving.bytes, bytes, length);
        send(DATA, sent, length);
        for (unsigned began = aegis_clock(); aegis_clock() - began < patience; aegis_yield())
            if (look(sent)) {
                sent++;
                return 0;
            }
    }
    return -1;
}

int link_receive(void *bytes, unsigned room, unsigned ticks)
{
    for (unsigned began = aegis_clock(); !is_waiting; aegis_yield()) {
        look(-1);
        if (!is_waiting && aegis_clock() - began >= ticks)
            return -1;
    }
    memcpy(bytes, waiting.bytes, waiting.length < room ? waiting.length : room);
    is_waiting = 0;
    return waiting.length;
}
