/* What the functions of exos.h take that keep, move and print bytes, in ticks, as costs.c. What comes by a wire is put into the ring by
   hand. */
#include "cost.h"

static unsigned char heap[8192] __attribute__((aligned(8))), from[1024] __attribute__((aligned(8))), to[1024] __attribute__((aligned(8)));
static volatile unsigned long long dividend = 0x123456789abcdef0ull, divisor = 12345678901ull;
static volatile unsigned long long quotient;
static struct pipe writer, reader;
static void *piece;
static volatile unsigned kept;

__attribute__((noinline)) static void moving_costs(void)
{
    heap_begin(heap, sizeof heap);
    COST("malloc, 100 bytes", , piece = malloc(100));
    COST("free", piece = malloc(100), free(piece));
    COST("memcpy, 1,024 bytes", , memcpy(to, from, 1024));
    COST("memcpy, 1,024 bytes to an odd address", , memcpy(to + 1, from, 1024));
    COST("memset, 1,024 bytes", , memset(to, 1, 1024));
    COST("a division of 64 bits", , quotient = dividend / divisor);
    COST("a division by 32 bits", , quotient = dividend / (unsigned)(divisor | 1));
    pipe_make(&writer, (void *)0x00700000, 200, 1);
    reader.page = writer.page;
    COST("pipe_write, 100 bytes", , pipe_write(&writer, from, 100));
    COST("pipe_read, 100 bytes", , kept = pipe_read(&reader, to, 100));
}

__attribute__((noinline)) static void more_costs(void)
{
    COST("calloc, 100 bytes", free(piece), piece = calloc(25, 4));
    COST("realloc, of 100 bytes to 200", piece = malloc(100), piece = realloc(piece, 200));
    COST("heap_begin", , heap_begin(heap, sizeof heap));
    COST("memmove, 1,000 bytes upwards", , memmove(from + 4, from, 1000));
    COST("memcmp, 1,024 equal bytes", memcpy(to, from, 1024), kept = memcmp(to, from, 1024));
    memset(from, 'x', 99);
    from[99] = 0;
    COST("strlen, 99 characters", , kept = strlen((char *)from));
    COST("strcpy, 99 characters", , strcpy((char *)to, (char *)from));
    COST("strncmp, 99 equal characters", , kept = strncmp((char *)to, (char *)from, 99));
    COST("strcmp, 99 equal characters", , kept = strcmp((char *)to, (char *)from));
    COST("strchr, the hundredth character", , kept = strchr((char *)to, 0) != 0);
    COST("pipe_close, where the reader knows", ((volatile unsigned *)writer.page)[3] = 1, pipe_close(&writer));
    COST("pipe_make", , pipe_make(&reader, (void *)0x00701000, 201 + turn, 1));
    COST("pipe_open", , pipe_open(&reader, (void *)0x00701000, 201, 1));
}

/* A packet of the link, as if it had come: the answer to a message, or a message of 100 bytes. */
static void arrive(unsigned char what, unsigned char number, unsigned char length)
{
    static unsigned turn;
    struct aegis_buffer *buffer = (struct aegis_buffer *)0x0fff0000 + turn++ % 2;
    buffer->bytes[14] = what;
    buffer->bytes[15] = number;
    buffer->bytes[16] = length;
    buffer->length = 20 + length;
}

__attribute__((noinline)) static void link_costs(void)
{
    link_open(0, 1, 1000, 1);
    COST("link_send, 100 bytes that are answered already", arrive(2, turn, 0), kept = link_send(from, 100));
    COST("link_receive, 100 bytes that are there", arrive(1, turn, 100), kept = link_receive(to, 100, 0));
}

__attribute__((noinline)) static void printing_costs(void)
{
    COST("snprintf, %d", , snprintf((char *)to, 20, "%d", 12345));
    COST("printf, a number and the end of a line", , printf("-- %u\n", 12345u));
    COST("print_out, of nothing", , print_out());
    COST("print_out", printf(" "), print_out());
}

int main(void)
{
    cost_begin();
    moving_costs();
    more_costs();
    printing_costs();
    link_costs();
    exit(0);
}
