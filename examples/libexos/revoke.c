/* Pages that the kernel asks back, and those that it took. */
#include "exos.h"

static unsigned outstanding;

/* How many pages are still to be given. The kernel writes the deadline last, so it is cleared first. Asks nothing: 12 ticks. */
unsigned revoke_asked(void)
{
    if (AEGIS_DEADLINE) {
        AEGIS_DEADLINE = 0;
        outstanding = AEGIS_OUTSTANDING;
    }
    return outstanding;
}

/* Frees a page, and answers how many are still to be given. A free: 16 ticks. One that isn't its own doesn't count. */
unsigned revoke_give(unsigned page)
{
    if (aegis_free(page) == AEGIS_OK && outstanding)
        outstanding--;
    return outstanding;
}

/* Makes a page of one's own a backup, which gets a copy of the next page that is taken. A backup: its code, and 10 ticks. */
int revoke_backup(unsigned page)
{
    return aegis_backup(page);
}

/* The page that has the copy of one that was taken, or AEGIS_ANY. The latest record counts, since a page may be taken again.
   Asks nothing: 18 ticks where none was taken. */
unsigned revoke_copy_of(unsigned page)
{
    unsigned count = AEGIS_TAKEN_PAGES < 64 ? AEGIS_TAKEN_PAGES : 64;
    while (count > 0)
        if (AEGIS_TAKINGS[--count].page == page)
            return AEGIS_TAKINGS[count].backup;
    return AEGIS_ANY;
}
