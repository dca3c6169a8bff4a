/* A pipe: a page with a ring of bytes that one environment writes and another reads. The kernel says once who may see the page. */
#include "exos.h"

enum { RING = 2048, BROKEN = -1 };

struct pipe_page {
    unsigned head;            /* how many bytes were written in all: the writer alone stores it */
    unsigned tail;            /* how many were read: the reader alone */
    unsigned closed;          /* the writer has written all */
    unsigned seen;            /* and the reader knows it */
    unsigned char unused[RING - 16];
    unsigned char ring[RING]; /* byte i stands at i modulo RING */
};

/* The writer's side: allocates the page, to be seen at an address by who presents the word. 0, or the kernel's code. An alloc, a
   bind: 30 ticks. */
int pipe_make(struct pipe *pipe, void *address, unsigned page, unsigned long long word)
{
    unsigned code = aegis_alloc(page, 0, word).code;
    *pipe = (struct pipe){address, 0};
    return code ? code : aegis_bind(address, page, 1, 0);
}

/* The reader's side: waits until the page is there. A bind, 24 ticks, and a yield as long as there is no right to it. */
int pipe_open(struct pipe *pipe, void *address, unsigned page, unsigned long long word)
{
    unsigned code;
    *pipe = (struct pipe){address, 0};
    while ((code = aegis_bind(address, page, 1, word)) == AEGIS_NO_RIGHT)
        aegis_yield();
    return code;
}

/* Copies between the ring and memory, in two parts where the ring's end lies between. */
static void move(volatile unsigned char *ring, unsigned count, unsigned char *bytes, unsigned length, int writes)
{
    while (length) {
        unsigned place = count % RING, part = RING - place < length ? RING - place : length;
        memcpy(writes ? (void *)(ring + place) : bytes, writes ? (void *)bytes : (void *)(ring + place), part);
        count += part;
        bytes += part;
        length -= part;
    }
}

/* Writes bytes, and yields while the ring is full; -1 where the reader's count can't be. 290 ticks for 100 bytes. Asks
   nothing while there is room. */
int pipe_write(struct pipe *pipe, const void *bytes, unsigned length)
{
    unsigned char *from = (unsigned char *)bytes;
    while (length) {
        unsigned full = pipe->count - pipe->page->tail, part = RING - full < length ? RING - full : length;
        if (full > RING)
            return BROKEN;
        if (full == RING) {
            aegis_yield();
            continue;
        }
        move(pipe->page->ring, pipe->count, from, part, 1);
        from += part;
        length -= part;
        pipe->count += part;
        pipe->page->head = pipe->count; /* the bytes are there: the reader may have them */
    }
    return 0;
}

/* Reads at least one byte, and yields while there is none: how many it read; 0 at the end, from which on the page may be gone, and isn't
   looked at any more; -1 where the writer's count can't be. 283 ticks for 100 bytes. */
int pipe_read(struct pipe *pipe, void *bytes, unsigned most)
{
    while (pipe->page) {
        unsigned closed = pipe->page->closed, there = pipe->page->head - pipe->count, part = there < most ? there : most;
        if (there > RING)
            return BROKEN;
        if (part) {
            move(pipe->page->ring, pipe->count, bytes, part, 0);
            pipe->count += part;
            pipe->page->tail = pipe->count; /* the places are free again */
            return part;
        }
        if (closed) {
            pipe->page->seen = 1;
            pipe->page = 0;
        } else if (!most)
            return 0;
        else
            aegis_yield();
    }
    return 0;
}

/* The writer has written all. It waits until the reader knows, since the page goes with the writer: 13 ticks where that is so, and a
   yield as long as it isn't. */
void pipe_close(struct pipe *pipe)
{
    pipe->page->closed = 1;
    while (!pipe->page->seen)
        aegis_yield();
}
