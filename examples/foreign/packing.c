/* Packs the standard input with lz4, unpacks it, and prints the sizes and a sum of each: docs/FOREIGN.md. */
#include <stdio.h>
#include <string.h>
#include "lz4.h"
#include "xxhash.h"

enum { MOST = 120000 };
static char text[MOST], packed[LZ4_COMPRESSBOUND(MOST)], back[MOST];

int main(void)
{
    int length = fread(text, 1, MOST, stdin);
    int size = LZ4_compress_default(text, packed, length, sizeof packed);
    int again = LZ4_decompress_safe(packed, back, size, sizeof back);
    printf("%d bytes, %08x\n%d packed, %08x\n", length, XXH32(text, length, 0), size, XXH32(packed, size, 0));
    printf("%s\n", again == length && !memcmp(text, back, length) ? "the same again" : "not the same again");
    return 0;
}
