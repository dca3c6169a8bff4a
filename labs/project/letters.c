/* Sends messages of growing length, the last one as long as a message may be, and one that is too long. It exits with 3 where nobody
   answers. */
#include "project.h"

enum { MESSAGES = 9 };
static unsigned char bytes[LINK_MOST + 1];

int main(void)
{
    if (link_open(0, 1, 3000, 20))
        exit(2);
    for (unsigned message = 0; message < MESSAGES; message++) {
        unsigned length = message * LINK_MOST / (MESSAGES - 1);
        for (unsigned at = 0; at < length; at++)
            bytes[at] = message * 7 + at;
        if (link_send(bytes, length))
            exit(3);
    }
    if (link_send(bytes, LINK_MOST + 1) != -1)
        exit(4);
    exit(link_send("end", 3) ? 3 : 0);
}
