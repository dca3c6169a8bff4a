/* Divides 304 pairs of numbers of 64 bits, shifts, copies and prints, each beside the slow way to the same; it exits with how often the
   two differ. */
#include "exos.h"

typedef unsigned long long wide;
wide __ashldi3(wide, int), __lshrdi3(wide, int);
long long __ashrdi3(long long, int);

static unsigned state = 1;

static unsigned random_word(void)
{
    state ^= state << 13;
    state ^= state >> 17;
    return state ^= state << 5;
}

/* A number of some length, so that short ones and long ones meet. */
static wide random_wide(void)
{
    wide number = (wide)random_word() << 32 | random_word();
    return number >> (random_word() % 64);
}

/* The quotient bit by bit. */
static wide slowly_divided(wide dividend, wide divisor, wide *rest)
{
    wide quotient = 0;
    *rest = 0;
    for (int bit = 63; bit >= 0; bit--) {
        int passes = *rest >> 63;
        *rest = *rest << 1 | (dividend >> bit & 1);
        if (passes || *rest >= divisor) {
            *rest -= divisor;
            quotient |= 1ull << bit;
        }
    }
    return quotient;
}

static unsigned divisions(unsigned *ticks)
{
    unsigned wrong = 0;
    for (unsigned i = 0; i < 304; i++) {
        volatile wide divisor = i % 16 ? random_wide() : 0; /* of 0 too, of which a compiler mustn't know */
        wide dividend = random_wide(), rest;
        unsigned before = aegis_clock();
        wide quotient = dividend / divisor;
        *ticks += aegis_clock() - before;
        wide due = slowly_divided(dividend, divisor, &rest);
        wrong += divisor ? quotient != due || dividend % divisor != rest : quotient != ~0ull || dividend % divisor != dividend;
        long long a = (long long)dividend, b = (long long)(divisor | 1);
        wrong += a / b * b + a % b != a || (a % b != 0 && (a % b < 0) != (a < 0));
    }
    return wrong;
}

static unsigned shifts(void)
{
    unsigned wrong = 0;
    volatile int places;
    for (places = 0; places < 64; places++) {
        wide number = random_wide() | 1ull << 63, left = number, right = number;
        long long down = (long long)number;
        for (int i = 0; i < places; i++)
            left += left, right /= 2, down >>= 1;
        wrong += __ashldi3(number, places) != left || __lshrdi3(number, places) != right || __ashrdi3((long long)number, places) != down;
        wrong += places && 63 - __builtin_clzll(right) != 63 - places;
    }
    return wrong;
}

static unsigned copies(void)
{
    static unsigned char from[128], to[128];
    unsigned wrong = 0;
    for (unsigned i = 0; i < 128; i++)
        from[i] = i + 1;
    for (unsigned at = 0; at < 8; at++)
        for (unsigned length = 0; length < 60; length += 7) {
            memset(to, 0xee, sizeof to);
            memcpy(to + at, from + length % 5, length);
            memmove(to + at + 2, to + at, length);
            for (unsigned i = 0; i < length; i++)
                wrong += to[at + 2 + i] != from[length % 5 + i];
            wrong += to[at + 2 + length] != 0xee;
        }
    return wrong + (memcmp("abd", "abc", 3) <= 0) + (strcmp("ab", "abc") >= 0) + (strlen("four") != 4) + (*strchr("a=b", '=') != '=');
}

int main(void)
{
    char text[12];
    unsigned ticks = 0, wrong = divisions(&ticks);
    wrong += shifts() + copies();
    int length = snprintf(text, sizeof text, "%d of %s", -2147483647 - 1, "the numbers");
    printf("%d %s|%5d|%05d|%%|%x\n", length, text, 42, -42, 0xfeedu);
    printf("a division takes %u ticks, %u results are wrong\n", ticks / 304, wrong);
    exit(wrong);
}
