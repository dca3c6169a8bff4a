/* Four threads, which the ends of slices switch: three strike out multiples, each on a page that comes when it is touched and is cleaned
   again and again, so that slices end in the midst of faults too; and add primes to a sum under a lock. Main waits for them. */
#include "exos.h"

enum { MOST = 600, WORKERS = 3, STACK = 512 };
static unsigned char stacks[WORKERS][STACK] __attribute__((aligned(8)));
static struct thread workers[WORKERS];
static struct lock lock;
static volatile unsigned done, sum, slices, starts;

static void ended(void)
{
    slices++;
}

static void started(void)
{
    starts++;
}

/* The primes below MOST, and with each a step of a sum that a switch in its midst would spoil. */
static void work(void *argument)
{
    unsigned turn = (unsigned)argument;
    unsigned char *struck = (unsigned char *)VM_BASE + turn * AEGIS_PAGE;
    for (unsigned number = 2; number < MOST; number++) {
        if (struck[number])
            continue;
        for (unsigned multiple = number * number; multiple < MOST; multiple += number)
            struck[multiple] = 1;
        vm_clean(struck);
        lock_take(&lock);
        unsigned seen = sum;
        for (volatile unsigned wait = 0; wait < turn; wait++)
            ;
        sum = seen + number;
        lock_drop(&lock);
    }
    done++;
}

int main(void)
{
    exos_on_fault(vm_on_fault);
    vm_map((void *)VM_BASE, WORKERS + 1, VM_WRITE);
    for (unsigned i = 0; i < WORKERS; i++)
        thread_make(&workers[i], work, (void *)(i + 1), stacks[i], STACK);
    if (exos_on_slices(ended, started)) {
        printf("slices are too short\n");
        exit(2);
    }
    while (done < WORKERS)
        thread_yield();
    printf("sum %u of %u threads\n", sum, done);
    printf("%s\n", slices > 1 && starts > 1 ? "by slices" : "in one slice");
    exit(0);
}
