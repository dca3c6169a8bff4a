/* Refuses requests for memory, in a program that this library is loaded before.

   A request is a call of malloc, calloc, realloc, aligned_alloc, memalign or posix_memalign; they are numbered from 0, in
   the order in which they are made once the libraries are loaded. The one whose number REFUSED says is refused, and with
   WITH_ALL_AFTER=1 all after it too. Where one is refused a byte is written to the descriptor that TOLD says. */
#include <errno.h>
#include <stddef.h>
#include <stdlib.h>
#include <unistd.h>

extern void *__libc_malloc(size_t size);
extern void *__libc_calloc(size_t count, size_t size);
extern void *__libc_realloc(void *block, size_t size);
extern void *__libc_memalign(size_t alignment, size_t size);

static long requests, refused = -1;
static int with_all_after, told = -1;

static long number_of(const char *name) {
  const char *text = getenv(name);
  return text ? atol(text) : -1;
}

__attribute__((constructor)) static void begin(void) {
  told = (int)number_of("TOLD");
  with_all_after = number_of("WITH_ALL_AFTER") == 1;
  requests = 0;
  refused = number_of("REFUSED");
}

static int is_refused(void) {
  long number = requests++;
  if (refused < 0 || number < refused || (number > refused && !with_all_after)) return 0;
  if (number == refused && write(told, "r", 1) != 1) abort();
  errno = ENOMEM;
  return 1;
}

void *malloc(size_t size) { return is_refused() ? NULL : __libc_malloc(size); }

void *calloc(size_t count, size_t size) { return is_refused() ? NULL : __libc_calloc(count, size); }

void *realloc(void *block, size_t size) { return is_refused() ? NULL : __libc_realloc(block, size); }

void *memalign(size_t alignment, size_t size) { return is_refused() ? NULL : __libc_memalign(alignment, size); }

void *aligned_alloc(size_t alignment, size_t size) { return memalign(alignment, size); }

int posix_memalign(void **block, size_t alignment, size_t size) {
  void *found = memalign(alignment, size);
  if (!found) return ENOMEM;
  *block = found;
  return 0;
}
