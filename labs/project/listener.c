/* The other machine: it prints messages of text, and of others the length and a sum, until one that says `end`. It is slow. */
#include "project.h"

enum { LONGEST_TEXT = 60 };
static char bytes[LINK_MOST + 1];

int main(void)
{
    if (link_open(1, 0, 3000, 20))
        exit(2);
    for (;;) {
        int length = link_receive(bytes, LINK_MOST, 900000);
        if (length < 0)
            exit(3);
        bytes[length] = 0;
        if (length == 3 && !strcmp(bytes, "end"))
            break;
        unsigned sum = 0;
        for (int at = 0; at < length; at++)
            sum += (unsigned char)bytes[at];
        if (length > 0 && length < LONGEST_TEXT)
            printf("%s", bytes);
        else
            printf("%d %u\n", length, sum);
        for (volatile unsigned wait = 0; wait < 500; wait++)
            ;
    }
    link_receive(bytes, LINK_MOST, 60000); /* the last answer may be lost */
    exit(0);
}
