/* What GNU's compiler calls by name where the machine has no instruction: division and shifts of 64 bits, counts of bits, and the
   moves of memory. Debian's libgcc has the first three too, but it is made for a later MIPS, whose instructions the machine
   refuses. */
typedef unsigned long long wide;
typedef unsigned long size;

struct division {
    wide quotient, rest;
};

/* Long division in base two: the quotient's bits follow the dividend's out of one word. By 0 all bits are set. */
static struct division divided(wide dividend, wide divisor)
{
    wide rest = 0;
    for (int bit = 0; bit < 64; bit++) {
        wide passes = rest >> 63;
        rest = rest << 1 | dividend >> 63;
        dividend <<= 1;
        if (passes || rest >= divisor) {
            rest -= divisor;
            dividend |= 1;
        }
    }
    return (struct division){dividend, rest};
}

static wide magnitude(long long number)
{
    return number < 0 ? -(wide)number : (wide)number;
}

wide __udivdi3(wide dividend, wide divisor)
{
    return divided(dividend, divisor).quotient;
}

wide __umoddi3(wide dividend, wide divisor)
{
    return divided(dividend, divisor).rest;
}

long long __divdi3(long long dividend, long long divisor)
{
    wide quotient = divided(magnitude(dividend), magnitude(divisor)).quotient;
    return (dividend < 0) != (divisor < 0) ? -quotient : quotient;
}

/* The rest has the dividend's sign. */
long long __moddi3(long long dividend, long long divisor)
{
    wide rest = divided(magnitude(dividend), magnitude(divisor)).rest;
    return dividend < 0 ? -rest : rest;
}

/* Shifts by 0 to 63. A shift of 32 bits by 32 isn't one by 0, and C has none. */
wide __ashldi3(wide number, int places)
{
    unsigned low = (unsigned)number, high = (unsigned)(number >> 32);
    if (places >= 32)
        return (wide)(low << (places - 32)) << 32;
    return places ? (wide)(high << places | low >> (32 - places)) << 32 | low << places : number;
}

wide __lshrdi3(wide number, int places)
{
    unsigned low = (unsigned)number, high = (unsigned)(number >> 32);
    if (places >= 32)
        return high >> (places - 32);
    return places ? (wide)(high >> places) << 32 | (low >> places | high << (32 - places)) : number;
}

long long __ashrdi3(long long number, int places)
{
    return number < 0 ? ~__lshrdi3(~number, places) : __lshrdi3(number, places);
}

/* How many bits are 0 above the highest 1, and below the lowest one, of a number that isn't 0. */
int __clzsi2(unsigned number)
{
    int zeros = 0;
    for (; !(number >> 31); number <<= 1)
        zeros++;
    return zeros;
}

int __ctzsi2(unsigned number)
{
    int zeros = 0;
    for (; !(number & 1); number >>= 1)
        zeros++;
    return zeros;
}

/* How many bits are 1. */
int __popcountsi2(unsigned number)
{
    int ones = 0;
    for (; number; number &= number - 1)
        ones++;
    return ones;
}

/* The same of 64 bits. */
int __clzdi2(wide number)
{
    unsigned high = (unsigned)(number >> 32);
    return high ? __clzsi2(high) : 32 + __clzsi2((unsigned)number);
}

int __ctzdi2(wide number)
{
    unsigned low = (unsigned)number;
    return low ? __ctzsi2(low) : 32 + __ctzsi2((unsigned)(number >> 32));
}

int __popcountdi2(wide number)
{
    return __popcountsi2((unsigned)number) + __popcountsi2((unsigned)(number >> 32));
}

void *memcpy(void *to, const void *from, size length)
{
    for (size i = 0; i < length; i++)
        ((char *)to)[i] = ((const char *)from)[i];
    return to;
}

void *memmove(void *to, const void *from, size length)
{
    if ((char *)to < (const char *)from)
        return memcpy(to, from, length);
    while (length > 0) {
        length--;
        ((char *)to)[length] = ((const char *)from)[length];
    }
    return to;
}

void *memset(void *to, int byte, size length)
{
    for (size i = 0; i < length; i++)
        ((char *)to)[i] = byte;
    return to;
}

int memcmp(const void *left, const void *right, size length)
{
    const unsigned char *a = left, *b = right;
    for (size i = 0; i < length; i++)
        if (a[i] != b[i])
            return a[i] - b[i];
    return 0;
}
