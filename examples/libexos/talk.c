/* Two machines on a wire. Which one a program is on, a packet of its schedule says: its third letter. Machine 0 sends ten messages of
   growing length and one that is too long; machine 1 is slow, so that its ring is full at times, and answers with their sum. */
#include "exos.h"

enum { MESSAGES = 10, LONG = 1400 };
static unsigned char bytes[1500] __attribute__((aligned(4)));

static unsigned machine(void)
{
    static const struct aegis_atom filter[] __attribute__((aligned(32))) = {{.offset = 0, .width = 2, .mask = 0xffff, .value = 0x6d61}};
    volatile struct aegis_buffer *told = (struct aegis_buffer *)0x00700000;
    struct aegis_answer page = aegis_alloc(AEGIS_ANY, 0, 0);
    if (page.code || aegis_bind((void *)told, page.value, 1, 0) || aegis_claim(filter, 1, page.value).code)
        exit(1);
    while (!told->length)
        aegis_yield();
    return told->bytes[2];
}

static int send_all(void)
{
    unsigned sum = 0;
    if (link_open(0, 1, 3000, 20))
        return 2;
    for (unsigned i = 0; i < MESSAGES; i++) {
        unsigned length = 1 + i * (LONG / MESSAGES);
        for (unsigned at = 0; at < length; at++)
            sum += bytes[at] = i * 7 + at;
        if (link_send(bytes, length))
            return 3;
    }
    unsigned theirs = 0;
    int length = link_receive(&theirs, sizeof theirs, 200000), too_long = link_send(bytes, LINK_MOST + 1);
    printf("sum %u of an answer of %d bytes, %s, too long: %d\n", theirs, length, theirs == sum ? "the same" : "another", too_long);
    return theirs != sum;
}

static int answer_all(void)
{
    unsigned sum = 0;
    if (link_open(1, 0, 3000, 20))
        return 2;
    for (unsigned i = 0; i < MESSAGES; i++) {
        int length = link_receive(bytes, sizeof bytes, 200000);
        for (int at = 0; at < length; at++)
            sum += bytes[at];
        for (volatile unsigned wait = 0; wait < 2000; wait++)
            ;
    }
    int gave_up = link_send(&sum, sizeof sum);
    printf("%u messages, %u packets lost, %d\n", MESSAGES, AEGIS_LOST, gave_up);
    return 0;
}

int main(void)
{
    exit(machine() == '0' ? send_all() : answer_all());
}
