/* Shares of the processor, after Waldspurger and Weihl: each client has a pass, which rises by its stride when it runs, and whoever has
   the lowest pass is next. The scheduler has the slot, and gives each of its slices away; clients accept it. */
#include "exos.h"

enum { CLIENTS = 16, STRIDE_ONE = 5040 };

static struct {
    unsigned env, stride, pass;
} clients[CLIENTS];
static unsigned count;

/* Gives an environment a share, of 1 to 5,040: -1 where there is no room, or the share is none. Asks nothing: 53 ticks for
   the third client. */
int stride_add(unsigned env, unsigned share)
{
    unsigned least = count ? ~0u : 0;
    if (count == CLIENTS || share - 1 >= STRIDE_ONE)
        return -1;
    for (unsigned i = 0; i < count; i++)
        least = clients[i].pass < least ? clients[i].pass : least;
    clients[count].env = env;
    clients[count].stride = STRIDE_ONE / share;
    clients[count].pass = least; /* who comes later begins with the others, and owes nothing for the time before */
    count++;
    return 0;
}

/* Who is next; there has to be one. Asks nothing: 47 ticks for three clients. Passes wrap after some 850,000 slices of a client
   with the share 1: the lowest is subtracted from all then. */
unsigned stride_next(void)
{
    unsigned at = 0;
    for (unsigned i = 1; i < count; i++)
        if (clients[i].pass < clients[at].pass)
            at = i;
    clients[at].pass += clients[at].stride;
    if (clients[at].pass >> 31)
        for (unsigned i = 0, least = clients[at].pass - clients[at].stride; i < count; i++)
            clients[i].pass -= least;
    return clients[at].env;
}

/* Gives slices away for ever; one that a client refuses, or a dead one, goes to the next at once. A give, and 54 ticks of a slice at most
   with three clients. */
void stride_run(void)
{
    for (;;)
        if (!count || aegis_give(stride_next()) == AEGIS_NO_SLICE)
            aegis_yield();
}
