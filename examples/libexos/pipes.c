/* Environment 0 writes 10,000 bytes into a pipe, in pieces of all lengths, and environment 1 reads them. Environment 2 writes into a
   second pipe, of which 1 finds that its count can't be. */
#include "exos.h"

enum { ALL = 10000, PAGE = 200, LIAR = 201 };
static const unsigned long long word = 0x123456789abcdef1ull;
static void *const here = (void *)0x00600000, *const there = (void *)0x00601000;

static int write_all(void)
{
    struct pipe pipe;
    unsigned char bytes[700];
    unsigned count = 0, length = 1;
    if (pipe_make(&pipe, here, PAGE, word))
        return 1;
    while (count < ALL) {
        unsigned part = length < ALL - count ? length : ALL - count;
        for (unsigned i = 0; i < part; i++)
            bytes[i] = (count + i) % 251;
        if (pipe_write(&pipe, bytes, part))
            return 2;
        count += part;
        length = length * 3 % 701;
    }
    pipe_close(&pipe);
    return 0;
}

static int lie(void)
{
    struct pipe pipe;
    if (pipe_make(&pipe, there, LIAR, word))
        return 1;
    pipe_write(&pipe, "abc", 3);
    *(volatile unsigned *)there = 5000; /* the head: more than a ring has */
    for (;;)
        aegis_yield();
}

int main(void)
{
    unsigned self = aegis_self();
    if (self != 1)
        exit(self ? lie() : write_all());
    struct pipe pipe, bad;
    unsigned char bytes[300];
    unsigned count = 0, sum = 0, wrong = 0;
    int length;
    if (pipe_open(&bad, there, LIAR, word) || pipe_open(&pipe, here, PAGE, word))
        return 1;
    while ((length = pipe_read(&pipe, bytes, sizeof bytes)) > 0)
        for (int i = 0; i < length; i++, count++) {
            sum += bytes[i];
            wrong += bytes[i] != count % 251;
        }
    printf("%u bytes, sum %u, %u wrong, and then %d\n", count, sum, wrong, pipe_read(&pipe, bytes, sizeof bytes));
    while (*(volatile unsigned *)there < 5000)
        aegis_yield();
    printf("of the other pipe: %d\n", pipe_read(&bad, bytes, sizeof bytes));
    exit(0);
}
