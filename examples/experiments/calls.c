/* A null call of the kernel, and calls of another environment: environment 0 serves as its client's letter says, by trust or without. */
#include "exos.h"

enum { CALLS = 100 };

#ifndef CALL_KIND
#define CALL_KIND 0
#endif

static unsigned next(unsigned client, unsigned number)
{
    (void)client;
    return number + 1;
}

static unsigned next_trusted(unsigned number)
{
    return number + 1;
}

static void next_words(unsigned client, unsigned words[AEGIS_WORDS])
{
    (void)client;
    words[0]++;
}

static unsigned null_calls(void)
{
    unsigned sum = 0;
    for (unsigned i = 0; i < CALLS; i++)
        sum += aegis_self();
    return sum;
}

static unsigned word_calls(void)
{
    unsigned words[AEGIS_WORDS] = {0};
    for (unsigned i = 0; i < CALLS; i++)
        aegis_ask_words(0, words);
    return words[0];
}

static unsigned calls(int kind)
{
    unsigned sum = 0;
    if (kind == 2)
        return word_calls();
    for (unsigned i = 0; i < CALLS; i++)
        sum += kind ? aegis_ask(0, i).value : rpc_ask_trusted(0, i);
    return sum;
}

int main(void)
{
    static const char *const names[] = {"trusted", "untrusted", "untrusted, eight words"};
    unsigned words[AEGIS_WORDS] = {0};
    if (aegis_self() == 0 && CALL_KIND == 0)
        rpc_serve_trusted(1, next_trusted);
    if (aegis_self() == 0 && CALL_KIND == 1)
        aegis_serve(2, next);
    if (aegis_self() == 0)
        aegis_serve_words(2, next_words);
    if (CALL_KIND == 0) {
        rpc_open_trusted();
        rpc_ask_trusted(0, 0);
    } else if (CALL_KIND == 1)
        aegis_ask(0, 0);
    else
        aegis_ask_words(0, words);
    unsigned before = aegis_clock(), sum = calls(CALL_KIND), ticks = aegis_clock() - before;
    before = aegis_clock();
    sum += null_calls();
    unsigned null = aegis_clock() - before;
    printf("%s %u, null call %u, sum %u\n", names[CALL_KIND], ticks, null, sum);
    exit(0);
}
