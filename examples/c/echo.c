/* Sends back the packets that are for it, with their two addresses swapped, and says after four how many came and were lost. */
#include "aegis.h"

enum { ADDRESS = 6, WANTED = 4 };

/* For the address 02:00:00:00:00:01, and of the kind 0x88b5. */
static const struct aegis_atom filter[] __attribute__((aligned(64))) = {
    {.offset = 0, .width = 4, .mask = 0xffffffff, .value = 0x02000000},
    {.offset = 4, .width = 2, .mask = 0xffff, .value = 0x0001},
    {.offset = 12, .width = 2, .mask = 0xffff, .value = 0x88b5},
};
static struct aegis_buffer *const ring = (struct aegis_buffer *)0x00500000;

/* Waits until the buffer has a packet. The kernel stores to it, which the compiler can't see. */
static unsigned received(const volatile struct aegis_buffer *buffer)
{
    while (!buffer->length)
        aegis_yield();
    return buffer->length;
}

static void swap_addresses(unsigned char *packet)
{
    for (unsigned i = 0; i < ADDRESS; i++) {
        unsigned char byte = packet[i];
        packet[i] = packet[ADDRESS + i];
        packet[ADDRESS + i] = byte;
    }
}

int main(void)
{
    struct aegis_answer page = aegis_alloc(AEGIS_ANY, 0, 0);
    if (page.code || aegis_bind(ring, page.value, 1, 0))
        return 1;
    if (aegis_claim(filter, sizeof filter / sizeof *filter, page.value).code)
        return 2;
    for (unsigned count = 0; count < WANTED; count++) {
        struct aegis_buffer *buffer = &ring[count % 2];
        unsigned length = received(buffer);
        swap_addresses(buffer->bytes);
        if (aegis_send(buffer->bytes, length))
            return 3;
        buffer->length = 0;
    }
    print_number(AEGIS_PACKETS);
    print(" packets, ");
    print_number(AEGIS_LOST);
    print(" lost\n");
    return 0;
}
