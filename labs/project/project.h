/* What the programs of the project call, and slices.s: your pager, your scheduler and your link. exos.h has what they are built from. */
#ifndef PROJECT_H
#define PROJECT_H
#include "exos.h"

/* The pager's region, and the store: environment that has a page for each page of the region, which the word lets others bind. */
enum { REGION = 0x10000000, PAGES = 24, STORE_FIRST = 400 };
#define STORE_WORD 0x5e1f5e1f5e1f5e1full

/* 1, 2. Memory in the region, which owns `frames` pages at most, and fewer by each page that the kernel asks for. */
void pager_begin(unsigned frames);

/* 3. Threads, which have slices in proportion to their shares; main's share is 1. slices.s calls the three below. */
void thread_add(struct thread *thread, unsigned share, void (*function)(void *), void *argument, void *stack, unsigned size);
struct thread *exos_thread_pick(void);  /* the thread that runs gives way: which one is next */
struct thread *exos_slice_ended(void);  /* its slice has ended: which one has the next */
void exos_slice_started(void);

/* 4. link_open, link_send, link_receive: exos.h; examples/libexos/link.c says what they answer. */

#endif
