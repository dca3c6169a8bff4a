/* tree.c over all three: a thread runs it, beside another one that counts; its heap is the region, with five frames; and what it prints
   goes over the link. */
#include "project.h"
#include <stdarg.h>

#define main tree_main
#define malloc tree_malloc
#define printf send_line
#include "tree.c"
#undef main
#undef malloc
#undef printf

enum { STACK = 2048 };
static unsigned char stacks[2][STACK] __attribute__((aligned(8)));
static struct thread threads[2];
static volatile unsigned is_done, counted;

void *tree_malloc(size_t size)
{
    return malloc(size);
}

/* tree.c prints words and their counts. */
int send_line(const char *format, ...)
{
    static char line[60];
    va_list arguments;
    va_start(arguments, format);
    const char *word = va_arg(arguments, const char *);
    int length = snprintf(line, sizeof line, format, word, va_arg(arguments, unsigned));
    va_end(arguments);
    if (link_send(line, length))
        exit(3);
    return length;
}

static void run(void *argument)
{
    (void)argument;
    tree_main();
    is_done = 1;
}

static void count(void *argument)
{
    (void)argument;
    for (;;)
        counted++;
}

int main(void)
{
    pager_begin(5);
    heap_begin((void *)REGION, PAGES * AEGIS_PAGE);
    if (link_open(0, 1, 3000, 100))
        exit(2);
    thread_add(&threads[0], 8, run, 0, stacks[0], STACK);
    thread_add(&threads[1], 1, count, 0, stacks[1], STACK);
    threads_begin();
    while (!is_done)
        thread_yield();
    printf("counted beside it: %s\n", counted ? "yes" : "no");
    exit(link_send("end", 3) ? 3 : 0);
}
