/* What the C library newlib asks of a system: a console, memory, a clock, an end; newlib_files.c has files. They take the place of
   heap.c, string.c and print.c, and a program with them is linked with --wrap=main. tools/foreign makes newlib and such programs:
   docs/FOREIGN.md.

   Memory is out of .bss, which asks nobody, and time stands still: so a program is quiet (docs/MODEL.md). With NEWLIB_CLOCK the time is
   the machine's ticks, which depend on others too. */
#include <errno.h>
#include <stdlib.h>
#include <sys/time.h>
#include <sys/times.h>
#include "aegis.h"

#ifndef NEWLIB_HEAP
#define NEWLIB_HEAP 400000
#endif
enum { TICKS_PER_SECOND = 1000000 };

static char heap[NEWLIB_HEAP] __attribute__((aligned(8))), *heap_end = heap;
static char *one_argument[] = {"program", 0};
extern char *newlib_arguments[] __attribute__((weak)); /* where the program has such a table, which ends with a 0 */
char **environ;

/* Memory for malloc. Asks nothing. */
void *sbrk(ptrdiff_t more)
{
    char *before = heap_end;
    if (more > heap + sizeof heap - before) {
        errno = ENOMEM;
        return (void *)-1;
    }
    heap_end += more;
    return before;
}

/* The console is both the output and the errors. A put for each page that has some of the bytes. */
int write(int to, const void *bytes, size_t length)
{
    const char *from = bytes, *end = from + length;
    if (to != 1 && to != 2) {
        errno = EBADF;
        return -1;
    }
    while (from < end) {
        size_t part = AEGIS_PAGE - (unsigned)from % AEGIS_PAGE, left = end - from;
        part = part < left ? part : left;
        if (aegis_put(from, part)) { /* the console is full */
            errno = ENOSPC;
            return -1;
        }
        from += part;
    }
    return length;
}

int isatty(int one)
{
    return one == 1 || one == 2;
}

static unsigned clock_now(void)
{
#ifdef NEWLIB_CLOCK
    return aegis_clock();
#else
    return 0;
#endif
}

int gettimeofday(struct timeval *now, void *zone)
{
    unsigned ticks = clock_now();
    (void)zone;
    *now = (struct timeval){.tv_sec = ticks / TICKS_PER_SECOND, .tv_usec = ticks % TICKS_PER_SECOND};
    return 0;
}

clock_t times(struct tms *used)
{
    *used = (struct tms){.tms_utime = clock_now() / (TICKS_PER_SECOND / CLOCKS_PER_SEC)};
    return used->tms_utime;
}

/* There is one process, and nobody sends it signals. */
int getpid(void)
{
    return 1;
}

int kill(int process, int signal)
{
    (void)process, (void)signal;
    errno = EINVAL;
    return -1;
}

void _exit(int code)
{
    aegis_exit(code);
}

int __real_main(int count, char **arguments, char **environment);

/* start.s calls this in main's place. What main leaves in buffers is written. */
int __wrap_main(void)
{
    char **arguments = newlib_arguments ? newlib_arguments : one_argument;
    int count = 0;
    while (arguments[count])
        count++;
    environ = arguments + count;
    exit(__real_main(count, arguments, environ));
}
