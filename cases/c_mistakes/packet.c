#include "aegis.h"
int main(void)
{
    volatile unsigned short kind = 0x88b5;
    volatile unsigned word = 0x01020304;
    return htons(kind) == 0xb588 && ntohs(htons(kind)) == kind && htonl(word) == 0x04030201 && ntohl(htonl(word)) == word ? 0 : 1;
}
