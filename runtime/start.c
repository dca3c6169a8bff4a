/* Where the native program begins on Linux for x86-64, so that it runs with each glibc from 2.14 on: the C library's own
   start-up object asks for 2.34, its `statx` for 2.28, and what it tells of the processor for 2.33. */

/* The C library's start, by the name that each of its versions has. */
__asm__(".symver __libc_start_main, __libc_start_main@GLIBC_2.2.5");

/* What is to be called before main, which the linker collects; among these is the kit's keeper of the words. */
typedef void Constructor(int, char **, char **);
extern Constructor *__init_array_start[] __attribute__((visibility("hidden")));
extern Constructor *__init_array_end[] __attribute__((visibility("hidden")));

__attribute__((used)) static void construct(int count, char **words, char **variables) {
  for (Constructor **at = __init_array_start; at != __init_array_end; at++) (*at)(count, words, variables);
}

/* By the System V interface the stack has the words' number and the words, and %rdx what is to be called at the end. */
__asm__(".globl _start\n"
        ".type _start, @function\n"
        "_start:\n"
        "  xor %ebp, %ebp\n"
        "  mov %rdx, %r9\n"
        "  pop %rsi\n"
        "  mov %rsp, %rdx\n"
        "  and $-16, %rsp\n"
        "  push %rax\n"
        "  push %rsp\n"
        "  xor %r8d, %r8d\n"
        "  lea construct(%rip), %rcx\n"
        "  mov main@GOTPCREL(%rip), %rdi\n"
        "  call *__libc_start_main@GOTPCREL(%rip)\n"
        "  hlt\n");

extern int *__errno_location(void);

/* The system call; a kernel before 4.11, which lacks it, answers ENOSYS. */
int statx(int directory, const char *path, int flags, unsigned mask, void *to) {
  enum { STATX = 332, HIGHEST_ERROR = 4095 };
  register long fourth __asm__("r10") = mask;
  register void *fifth __asm__("r8") = to;
  long answer = STATX;
  __asm__ volatile("syscall"
                   : "+a"(answer)
                   : "D"((long)directory), "S"(path), "d"((long)flags), "r"(fourth), "r"(fifth)
                   : "rcx", "r11", "memory");
  if (answer >= 0 || answer < -HIGHEST_ERROR) return (int)answer;
  *__errno_location() = (int)-answer;
  return -1;
}

/* What the processor has, in the form of <sys/platform/x86.h>: registers of CPUID, first as it answers and then what is
   usable. The program asks for instructions of its second level alone, which need nothing of the system. */
typedef struct {
  unsigned answered[4], usable[4];
} Features;

const Features *__x86_get_cpuid_feature_leaf(unsigned index) {
  static const unsigned leaves[] = {1, 7, 0x80000001};
  static Features found, none;
  if (index >= sizeof leaves / sizeof *leaves) return &none;
  unsigned *to = found.answered;
  __asm__("cpuid" : "=a"(to[0]), "=b"(to[1]), "=c"(to[2]), "=d"(to[3]) : "a"(leaves[index]), "c"(0));
  for (int at = 0; at < 4; at++) found.usable[at] = to[at];
  return &found;
}
