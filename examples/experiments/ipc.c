/* A word to another environment and one back, by three ways: a page that both see, two pipes, and calls. */
#include "exos.h"

enum { TURNS = 100, PAGE = 200 };
static const unsigned long long word = 0x1122334455667788ull;
static volatile unsigned *const shared = (unsigned *)0x00600000;

static unsigned next(unsigned client, unsigned number)
{
    (void)client;
    return number + 1;
}

/* Environment 1 answers by the page, then by pipes, and then serves. */
static void answer(void)
{
    struct pipe in, out;
    unsigned number;
    while (aegis_bind((void *)shared, PAGE, 1, word))
        aegis_yield();
    for (unsigned turn = 1; turn <= TURNS; turn++) {
        while (shared[0] != turn)
            aegis_yield();
        shared[1] = turn;
    }
    pipe_open(&in, (void *)0x00601000, PAGE + 1, word);
    pipe_make(&out, (void *)0x00602000, PAGE + 2, word);
    for (unsigned turn = 0; turn < TURNS; turn++) {
        pipe_read(&in, &number, sizeof number);
        number++;
        pipe_write(&out, &number, sizeof number);
    }
    aegis_serve(1, next);
}

static unsigned by_page(void)
{
    unsigned before = aegis_clock();
    for (unsigned turn = 1; turn <= TURNS; turn++) {
        shared[0] = turn;
        while (shared[1] != turn)
            aegis_yield();
    }
    return aegis_clock() - before;
}

int main(void)
{
    struct pipe out, in;
    unsigned number = 0, page, pipes, before;
    if (aegis_self() == 1)
        answer();
    if (aegis_alloc(PAGE, 0, word).code || aegis_bind((void *)shared, PAGE, 1, 0))
        return 1;
    page = by_page();
    pipe_make(&out, (void *)0x00601000, PAGE + 1, word);
    pipe_open(&in, (void *)0x00602000, PAGE + 2, word);
    before = aegis_clock();
    for (unsigned turn = 0; turn < TURNS; turn++) {
        pipe_write(&out, &number, sizeof number);
        pipe_read(&in, &number, sizeof number);
    }
    pipes = aegis_clock() - before;
    aegis_ask(1, 0);
    before = aegis_clock();
    for (unsigned turn = 0; turn < TURNS; turn++)
        number = aegis_ask(1, number).value;
    printf("page %u, pipes %u, calls %u, number %u\n", page, pipes, aegis_clock() - before, number);
    exit(0);
}
