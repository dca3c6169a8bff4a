/* What libexos/newlib.c asks of the kernel, of Linux in its place: a program made with it runs under qemu-mipsel. */
#ifndef AEGIS_H
#define AEGIS_H
#define AEGIS_PAGE 4096u

static inline int linux_call(int number, int first, const void *bytes, unsigned length)
{
    register int result __asm__("$2") = number;
    register int is_error __asm__("$7");
    register int a __asm__("$4") = first;
    register const void *b __asm__("$5") = bytes;
    register unsigned c __asm__("$6") = length;
    __asm__ volatile("syscall" : "+r"(result), "=r"(is_error) : "r"(a), "r"(b), "r"(c)
                     : "memory", "$1", "$3", "$8", "$9", "$10", "$11", "$12", "$13", "$14", "$15", "$24", "$25");
    return is_error ? -1 : result;
}

static inline int aegis_put(const void *bytes, unsigned length)
{
    return linux_call(4004, 1, bytes, length) != (int)length;
}

__attribute__((noreturn)) static inline void aegis_exit(unsigned code)
{
    for (;;)
        linux_call(4246, code, 0, 0);
}
#endif
