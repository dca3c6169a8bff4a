/* Shifts of 64 bits by 0 to 63 places, and the bytes of a word in the other order, which GNU's compiler calls by name. Asks nothing: 10
   to 20 ticks. */
typedef unsigned long long wide;

wide __ashldi3(wide number, int places)
{
    unsigned low = (unsigned)number, high = (unsigned)(number >> 32);
    if (places >= 32)
        return (wide)(low << (places - 32)) << 32;
    return places ? (wide)(high << places | low >> (32 - places)) << 32 | low << places : number;
}

wide __lshrdi3(wide number, int places)
{
    unsigned low = (unsigned)number, high = (unsigned)(number >> 32);
    if (places >= 32)
        return high >> (places - 32);
    return places ? (wide)(high >> places) << 32 | (low >> places | high << (32 - places)) : number;
}

long long __ashrdi3(long long number, int places)
{
    return number < 0 ? ~__lshrdi3(~number, places) : __lshrdi3(number, places);
}

unsigned __bswapsi2(unsigned number)
{
    return number << 24 | (number & 0xff00) << 8 | (number >> 8 & 0xff00) | number >> 24;
}
