#include "aegis.h"

__attribute__((noinline)) static int square(int number)
{
    return number * number;
}

__attribute__((noinline)) static int sum_of_squares(int last)
{
    int sum = 0;
    for (int number = 1; number <= last; number++)
        sum += square(number);
    return sum;
}

int main(void)
{
    print_number(sum_of_squares(3));
    print("\n");
    return 0;
}
