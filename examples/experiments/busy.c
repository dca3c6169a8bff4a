/* Counts for ever: a program beside others. */
int main(void)
{
    static volatile unsigned count;
    for (;;)
        count++;
}
