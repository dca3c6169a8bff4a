/* Memory in pieces, out of one stretch of addresses: of .bss, which asks nobody and so keeps a program quiet, or of vm_map, whose
   pages come when they are touched. The pieces lie one after another; each begins with its size, whose lowest bit says that it is
   taken. */
#include "exos.h"

struct piece {
    unsigned size; /* its own and this word, a multiple of 8; bit 0 is set where it is taken */
};
enum { HEAD = sizeof(struct piece), GRAIN = 8, TAKEN = 1 };

static char *first, *behind, *look; /* the pieces, and where the last search ended */

static struct piece *piece_at(char *place)
{
    return (struct piece *)(place + GRAIN - HEAD);
}

/* Gives the heap its memory, of 16 bytes at least from a multiple of 8 on: 17 ticks. */
void heap_begin(void *memory, exos_size size)
{
    first = look = memory;
    behind = first + (size & ~(exos_size)(GRAIN - 1)) - GRAIN;
    piece_at(first)->size = behind - first;
}

/* The piece with the free ones after it. */
static unsigned joined(char *place)
{
    unsigned size = piece_at(place)->size;
    while (place + size < behind && !(piece_at(place + size)->size & TAKEN))
        size += piece_at(place + size)->size;
    return piece_at(place)->size = size;
}

/* Takes `size` bytes at a free piece, and leaves the rest free. */
static void *taken(char *place, unsigned size)
{
    unsigned all = piece_at(place)->size;
    if (all - size >= 2 * GRAIN) {
        piece_at(place + size)->size = all - size;
        all = size;
    }
    piece_at(place)->size = all | TAKEN;
    look = place + all < behind ? place + all : first;
    return place + GRAIN;
}

static unsigned size_of(exos_size size)
{
    return (size + HEAD + GRAIN - 1) / GRAIN * GRAIN;
}

/* The first free piece from a place on that is large enough. */
static void *found(char *place, unsigned wanted)
{
    for (; place < behind; place += piece_at(place)->size & ~TAKEN)
        if (!(piece_at(place)->size & TAKEN) && joined(place) >= wanted)
            return taken(place, wanted);
    return 0;
}

/* Bytes at a multiple of 8; 0 where there are none any more, or where no heap has begun. It looks from where the last search ended,
   so that mostly the first piece fits, and then from the first piece on: 65 ticks. Asks nothing, as all of this file. */
void *malloc(exos_size size)
{
    if (!first || size > (exos_size)(behind - first))
        return 0;
    char *from = look;
    look = first; /* pieces are joined on the way, also the one where the last search ended */
    void *memory = found(from, size_of(size));
    return memory ? memory : found(first, size_of(size));
}

/* Gives a piece back: 27 ticks. What isn't a piece is ignored: a null pointer, an address outside, one that was given back. */
void free(void *memory)
{
    char *place = (char *)memory - GRAIN;
    if (!memory || place < first || place >= behind || !(piece_at(place)->size & TAKEN))
        return;
    piece_at(place)->size &= ~TAKEN;
}

/* Bytes that are all 0, or a null pointer where their number is too large: 208 ticks for 100 bytes. */
void *calloc(exos_size count, exos_size size)
{
    if (size && count > 0xffffffffu / size)
        return 0;
    void *memory = malloc(count * size);
    return memory ? memset(memory, 0, count * size) : 0;
}

/* The same bytes in a piece of another size, which stays where it is if it is large enough: 327 ticks where 100 bytes move. Where there
   is no room it answers 0, and the piece stays. The memory has to be a piece, or 0: one that was given back is had twice. */
void *realloc(void *memory, exos_size size)
{
    if (!memory)
        return malloc(size);
    unsigned old = (piece_at((char *)memory - GRAIN)->size & ~TAKEN) - HEAD;
    if (size <= old)
        return memory;
    void *moved = malloc(size);
    if (moved) {
        memcpy(moved, memory, old);
        free(memory);
    }
    return moved;
}
