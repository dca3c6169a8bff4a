/* Sends a packet to machine 1, which sends it back, 64 times, and prints the mean and the longest round trip. Between two it waits for a
   while that differs, so that it meets the other machine at all times of its slices. */
#include "exos.h"

enum { TRIPS = 64 };
static volatile struct aegis_buffer *const ring = (struct aegis_buffer *)0x00500000;
static unsigned char packet[64] __attribute__((aligned(64))) = {2, 0, 0, 0, 0, 1, 2, 0, 0, 0, 0, 0, 0x88, 0xb5, '?'};
static const struct aegis_atom filter[] __attribute__((aligned(32))) = {
    {.offset = 0, .width = 4, .mask = 0xffffffff, .value = 0x02000000},
    {.offset = 4, .width = 2, .mask = 0xffff, .value = 0},
};

int main(void)
{
    struct aegis_answer page = aegis_alloc(AEGIS_ANY, 0, 0);
    unsigned all = 0, longest = 0, shortest = ~0u;
    if (page.code || aegis_bind((void *)ring, page.value, 1, 0) || aegis_claim(filter, 2, page.value).code)
        return 1;
    for (volatile unsigned wait = 0; wait < 5000; wait++)
        ; /* until the other machine has claimed */
    for (unsigned trip = 0; trip < TRIPS; trip++) {
        unsigned before = aegis_clock();
        aegis_send(packet, 15);
        while (!ring[trip % 2].length)
            ;
        unsigned ticks = aegis_clock() - before;
        ring[trip % 2].length = 0;
        all += ticks;
        longest = ticks > longest ? ticks : longest;
        shortest = ticks < shortest ? ticks : shortest;
        for (volatile unsigned wait = 0; wait < trip * 37 % 211; wait++)
            ;
    }
    printf("%u %u %u\n", shortest, all / TRIPS, longest);
    exit(0);
}
