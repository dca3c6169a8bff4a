/* Cuts, interrupts and refuses reads and writes, in a program that this library is loaded before.

   Reads and writes are numbered apart from 0, in their order, once the libraries are loaded. Each takes at most PIECE bytes. Where
   INTERRUPTED=1 each is answered first as if a signal had come. The read whose number READ says, and the write whose number WRITE
   says, is answered AS: `refused` or `nothing`, which is no byte. */
#define _GNU_SOURCE
#include <errno.h>
#include <stdlib.h>
#include <string.h>
#include <sys/syscall.h>
#include <unistd.h>

enum { READS, WRITES };

static long calls[2], odd[2] = {-1, -1};
static size_t piece = (size_t)-1;
static int is_refused, with_signals, was_interrupted[2];

static const char *text_of(const char *name) {
  const char *text = getenv(name);
  return text ? text : "";
}

static long number_of(const char *name) {
  const char *text = getenv(name);
  return text ? atol(text) : -1;
}

__attribute__((constructor)) static void begin(void) {
  if (getenv("PIECE")) piece = (size_t)number_of("PIECE");
  odd[READS] = number_of("READ");
  odd[WRITES] = number_of("WRITE");
  is_refused = strcmp(text_of("AS"), "refused") == 0;
  with_signals = number_of("INTERRUPTED") == 1;
}

/* Whether a call is answered here, with its answer. */
static int answers(int kind, ssize_t *answer) {
  *answer = -1;
  if (with_signals && !was_interrupted[kind]) {
    was_interrupted[kind] = 1;
    errno = EINTR;
    return 1;
  }
  was_interrupted[kind] = 0;
  if (calls[kind]++ != odd[kind]) return 0;
  if (!is_refused) *answer = 0;
  errno = EIO;
  return 1;
}

static size_t cut(size_t size) { return size < piece ? size : piece; }

ssize_t read(int from, void *to, size_t size) {
  ssize_t answer;
  return answers(READS, &answer) ? answer : syscall(SYS_read, from, to, cut(size));
}

ssize_t write(int to, const void *from, size_t size) {
  ssize_t answer;
  return answers(WRITES, &answer) ? answer : syscall(SYS_write, to, from, cut(size));
}
