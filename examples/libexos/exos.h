/* A library operating system in C over the kernel's calls: README.md says what each file is. Each function says what it asks of the
   kernel, and what it takes in ticks. */
#ifndef EXOS_H
#define EXOS_H
#include "aegis.h"

typedef unsigned long exos_size; /* what sizeof is of */

/* Words of the context page, in reach of $0 for upcall.s and slices.s. */
#define EXOS_FAULTS (*(volatile unsigned *)0x1e04)    /* how many faults are being handled */
#define EXOS_NO_SWITCH (*(volatile unsigned *)0x1e08) /* threads aren't switched */
#define EXOS_CURRENT (*(struct thread *volatile *)0x1e0c)

/* upcall.c: an exception, as a function in C sees it. What stands here is restored, so a handler may change it. */
struct exos_frame {
    unsigned home[4], registers[15] /* $1 to $15 */, r24, r25, r28, r29, r31, hi, lo;
    unsigned resume; /* where the program goes on: the instruction again, unless the handler moves it */
    unsigned cause, address, r26, r27, unused;
};
enum exos_cause { EXOS_MOD = 1, EXOS_TLBL, EXOS_TLBS, EXOS_ADEL, EXOS_ADES, EXOS_BREAK = 9, EXOS_RESERVED, EXOS_COPROCESSOR, EXOS_OVERFLOW };
typedef int exos_handler(struct exos_frame *frame);
void exos_on_fault(exos_handler *handler);
unsigned exos_code(const struct exos_frame *frame);
void exos_skip(struct exos_frame *frame);
int exos_on_slices(void (*ended)(void), void (*started)(void));

/* vm.c: memory that the program pages itself, from VM_BASE on. */
enum { VM_BASE = 0x10000000, VM_PAGES = 4096 };
enum vm_rights { VM_NONE = 0, VM_READ = 1, VM_WRITE = 3 };
int vm_map(void *address, unsigned pages, enum vm_rights rights);
void vm_unmap(void *address, unsigned pages);
int vm_protect(void *address, unsigned pages, enum vm_rights rights);
int vm_is_dirty(const void *address);
void vm_clean(void *address);
int vm_touch(const void *address, unsigned length, int stores);
unsigned vm_lend(void *address, unsigned long long read, unsigned long long write);
exos_handler vm_on_fault;
extern unsigned vm_frames, vm_most_frames; /* how many pages it has, and how many it may have; 0 for all */

/* heap.c */
void heap_begin(void *memory, exos_size size);
void *malloc(exos_size size);
void *calloc(exos_size count, exos_size size);
void *realloc(void *memory, exos_size size);
void free(void *memory);

/* string.c */
void *memcpy(void *to, const void *from, exos_size length);
void *memmove(void *to, const void *from, exos_size length);
void *memset(void *to, int byte, exos_size length);
int memcmp(const void *left, const void *right, exos_size length);
exos_size strlen(const char *text);
int strcmp(const char *left, const char *right);
int strncmp(const char *left, const char *right, exos_size most);
char *strcpy(char *to, const char *from);
char *strchr(const char *text, int character);

/* print.c */
int printf(const char *format, ...) __attribute__((format(printf, 1, 2)));
int snprintf(char *to, exos_size size, const char *format, ...) __attribute__((format(printf, 3, 4)));
void print_out(void);
__attribute__((noreturn)) void exit(int code);

/* thread.c */
struct thread {
    unsigned registers[31], hi, lo, at; /* $1 to $31: slices.s */
    struct thread *next;
};
struct lock {
    volatile unsigned held;
};
int threads_begin(void);
void thread_make(struct thread *thread, void (*function)(void *), void *argument, void *stack, unsigned size);
void thread_yield(void);
__attribute__((noreturn)) void thread_exit(void);
void lock_take(struct lock *lock);
void lock_drop(struct lock *lock);

/* rpc.s: calls to a server that a client trusts with its registers; examples/c/calls.s has those for one that it doesn't. */
void rpc_open_trusted(void);
unsigned rpc_ask_trusted(unsigned server, unsigned argument);
__attribute__((noreturn)) void rpc_serve_trusted(unsigned client, unsigned (*answer)(unsigned argument));

/* pipe.c: bytes from one environment to another through a page. */
struct pipe {
    volatile struct pipe_page *page;
    unsigned count;
};
int pipe_make(struct pipe *pipe, void *address, unsigned page, unsigned long long word);
int pipe_open(struct pipe *pipe, void *address, unsigned page, unsigned long long word);
int pipe_write(struct pipe *pipe, const void *bytes, unsigned length);
int pipe_read(struct pipe *pipe, void *bytes, unsigned most);
void pipe_close(struct pipe *pipe);

/* stride.c: shares of the processor for other environments. */
int stride_add(unsigned env, unsigned share);
unsigned stride_next(void);
__attribute__((noreturn)) void stride_run(void);

/* link.c: messages between machines on a wire, each once and in order. */
enum { LINK_MOST = 1488 };
int link_open(unsigned char self, unsigned char peer, unsigned ticks, unsigned tries);
int link_send(const void *bytes, unsigned length);
int link_receive(void *bytes, unsigned most, unsigned ticks);

/* revoke.c: pages that are asked back, and taken. */
unsigned revoke_asked(void);
unsigned revoke_give(unsigned page);
int revoke_backup(unsigned page);
unsigned revoke_copy_of(unsigned page);

#endif
