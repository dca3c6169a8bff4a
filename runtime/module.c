/* The machine below the program where it is a WebAssembly module: words, files and standard output in the module's own
   memory. The module imports nothing, so it reaches nothing: what it writes is a function of what it is given.

   Whoever carries it takes memory with `take`, puts bytes there, names them with `add_word` and `add_file`, and calls `run`,
   which answers the exit status. `out` and `out_size` are what was written to standard output. A file that was opened and
   isn't there is told by `wanted` and `wanted_size`: the carrier can add it and run the same words in another instance.
   An instance serves one run. */

typedef unsigned char byte;
typedef unsigned int u32;
typedef unsigned long size;

#define EXPORTED(name) __attribute__((export_name(#name), visibility("default")))

enum { NO_SUCH_FILE = 2, BAD_DESCRIPTOR = 9, OUT_OF_MEMORY = 12, NOT_PERMITTED = 13, TOO_MANY_OPEN = 24 };

/* --- memory --- */

/* A block begins with a head that has its class. Sizes of classes go in quarters of powers of two from 64 on, so a block is
   at most a quarter larger than what was asked for. What is freed goes to the list of its class. */
typedef struct Block {
  size class;
  struct Block *next; /* of a free block: the next one of its class */
} Block;

enum { HEAD = 16, CLASSES = 4 * 32, PAGE = 65536 };

/* Addresses stay below 2^32 less a page, so that they fit 32-bit memory. */
#define LIMIT (0x100000000ul - PAGE)

extern byte __heap_base;
static Block *free_blocks[CLASSES];
static size top; /* the end of the blocks; 0 where there is none */

static size class_of(size bytes) {
  if (bytes <= 64) return bytes ? (bytes - 1) / 16 : 0;
  size power = 63 - (size)__builtin_clzl(bytes - 1);
  return 4 * (power - 5) + ((bytes - 1) >> (power - 2) & 3);
}

static size room_of(size class) {
  return class < 4 ? 16 * (class + 1) : (5 + class % 4) << (class / 4 + 3);
}

/* Sees to it that memory reaches up to an address; whether it does. */
static int reaches(size end) {
  size now = __builtin_wasm_memory_size(0) * PAGE;
  if (end <= now) return 1;
  if (end > LIMIT) return 0;
  /* In 32-bit memory -1 is told by the low 32 bits alone. */
  return (u32)__builtin_wasm_memory_grow(0, (end - now + PAGE - 1) / PAGE) != 0xFFFFFFFFu;
}

static void *allocate(size bytes) {
  if (bytes > LIMIT) return 0;
  size class = class_of(bytes);
  Block *block = free_blocks[class];
  if (block) {
    free_blocks[class] = block->next;
    return (byte *)block + HEAD;
  }
  if (!top) top = ((size)&__heap_base + 15) / 16 * 16;
  if (!reaches(top + HEAD + room_of(class))) return 0;
  block = (Block *)top;
  block->class = class;
  top += HEAD + room_of(class);
  return (byte *)block + HEAD;
}

static void release(void *bytes) {
  Block *block = (Block *)((byte *)bytes - HEAD);
  block->next = free_blocks[block->class];
  free_blocks[block->class] = block;
}

static void *reallocate(void *bytes, size wanted) {
  Block *block = (Block *)((byte *)bytes - HEAD);
  size room = room_of(block->class);
  if (wanted <= room) return bytes;
  if (wanted > LIMIT) return 0;
  size class = class_of(wanted);
  if ((size)bytes + room == top && reaches((size)bytes + room_of(class))) {
    block->class = class; /* the last block grows where it is */
    top = (size)bytes + room_of(class);
    return bytes;
  }
  void *to = allocate(wanted);
  if (!to) return 0;
  __builtin_memcpy(to, bytes, room);
  release(bytes);
  return to;
}

/* What the program asks of its heap: whether there was memory, and where. */
typedef struct {
  size is_there;
  void *at;
} Tried;

static Tried tried(void *at) {
  static byte nothing;
  return at ? (Tried){1, at} : (Tried){0, &nothing};
}

Tried rattle_alloc(size bytes, size alignment) { return tried(allocate(bytes ? bytes : alignment)); }

Tried rattle_realloc(void *at, size kept, size bytes, size alignment) {
  (void)kept;
  return tried(reallocate(at, bytes ? bytes : alignment));
}

void rattle_dealloc(void *at) { release(at); }

/* --- words --- */

typedef struct {
  const byte *bytes;
  size length;
} Text;

enum { MOST_WORDS = 64, MOST_FILES = 256, MOST_OPEN = 64 };

static const char PROGRAM[] = "aegis";
static Text words[MOST_WORDS] = {{(const byte *)PROGRAM, sizeof PROGRAM - 1}};
static size word_count = 1;

/* Copies a text, or answers -2 where there isn't room for it. */
static long put(Text text, byte *to, size room) {
  if (text.length > room) return -2;
  __builtin_memcpy(to, text.bytes, text.length);
  return (long)text.length;
}

long rattle_arg(size number, byte *to, size room) { return number < word_count ? put(words[number], to, room) : -1; }

/* There are no variables of an environment. */
long rattle_env(const byte *name, byte *to, size room) { return (void)name, (void)to, (void)room, -1; }

long rattle_env_at(size number, byte *to, size room) { return (void)number, (void)to, (void)room, -1; }

/* --- files and standard output --- */

typedef struct {
  Text name, bytes;
} File;

typedef struct {
  const File *file; /* none: the descriptor is closed */
  size at;
} Opened;

static File files[MOST_FILES];
static size file_count;
static Opened opened[MOST_OPEN]; /* of descriptors from FIRST on */
static Text missing;             /* the last name that was opened and isn't there */
static byte *output;
static size output_size, output_room;
static int error;

enum { OUTPUT = 1, ERRORS = 2, FIRST = 3 };

static int failed(int why) {
  error = why;
  return -1;
}

int rattle_errno(void) { return error; }

void rattle_set_errno(int number) { error = number; }

static int is_same(Text one, Text other) {
  size at = 0;
  while (at < one.length && at < other.length && one.bytes[at] == other.bytes[at]) at++;
  return at == one.length && at == other.length;
}

static Text text_of(const char *string) {
  size length = 0;
  while (string[length]) length++;
  return (Text){(const byte *)string, length};
}

static int open_file(const File *file) {
  for (int at = 0; at < MOST_OPEN; at++)
    if (!opened[at].file) {
      opened[at] = (Opened){file, 0};
      return at + FIRST;
    }
  return failed(TOO_MANY_OPEN);
}

int open(const char *path, int flags, ...) {
  enum { ACCESS = 3 };
  Text name = text_of(path);
  if (flags & ACCESS) return failed(NOT_PERMITTED);
  for (size at = 0; at < file_count; at++)
    if (is_same(files[at].name, name)) return open_file(&files[at]);
  byte *kept = allocate(name.length);
  if (kept) {
    __builtin_memcpy(kept, path, name.length);
    missing = (Text){kept, name.length};
  }
  return failed(NO_SUCH_FILE);
}

static Opened *opened_at(int descriptor) {
  if (descriptor < FIRST || descriptor >= FIRST + MOST_OPEN) return 0;
  Opened *it = &opened[descriptor - FIRST];
  return it->file ? it : 0;
}

int close(int descriptor) {
  Opened *it = opened_at(descriptor);
  if (!it) return failed(BAD_DESCRIPTOR);
  it->file = 0;
  return 0;
}

long read(int descriptor, byte *to, size room) {
  if (descriptor == 0) return 0; /* standard input is empty */
  Opened *it = opened_at(descriptor);
  if (!it) return failed(BAD_DESCRIPTOR);
  size left = it->file->bytes.length - it->at;
  size count = room < left ? room : left;
  __builtin_memcpy(to, it->file->bytes.bytes + it->at, count);
  it->at += count;
  return (long)count;
}

/* The head of Linux' `struct statx`, of 256 bytes in all. */
typedef struct {
  u32 mask, block_size;
  size attributes;
  u32 links, user, group;
  unsigned short mode, spare;
  size inode, length, blocks;
  size rest[25];
} Status;

int statx(int descriptor, const char *path, int flags, u32 mask, Status *to) {
  enum { BASIC = 0x7FF, REGULAR_READABLE = 0100444 };
  (void)path, (void)flags, (void)mask;
  Opened *it = opened_at(descriptor);
  if (!it) return failed(BAD_DESCRIPTOR);
  __builtin_memset(to, 0, sizeof *to);
  to->mask = BASIC;
  to->block_size = 4096;
  to->links = 1;
  to->mode = REGULAR_READABLE;
  to->length = it->file->bytes.length;
  to->blocks = (to->length + 511) / 512;
  return 0;
}

long write(int descriptor, const byte *bytes, size count) {
  if (descriptor == ERRORS) return (long)count;
  if (descriptor != OUTPUT) return failed(BAD_DESCRIPTOR);
  if (output_room - output_size < count) {
    size room = 2 * (output_size + count);
    byte *to = output ? reallocate(output, room) : allocate(room);
    if (!to) return failed(OUT_OF_MEMORY);
    output = to;
    output_room = room;
  }
  __builtin_memcpy(output + output_size, bytes, count);
  output_size += count;
  return (long)count;
}

/* By this name main writes why it refuses a processor, which doesn't come to pass. */
long __write(int descriptor, const byte *bytes, size count) { return write(descriptor, bytes, count); }

/* Whether the processor has what native code needs: yes, since this code is none. */
const u32 *__x86_get_cpuid_feature_leaf(u32 leaf) {
  static const u32 all[8] = {~0u, ~0u, ~0u, ~0u, ~0u, ~0u, ~0u, ~0u};
  return (void)leaf, all;
}

/* A signal that is to be ignored never comes. */
size __sysv_signal(int number, size handler) { return (void)number, (void)handler, 0; }

/* --- for whoever carries the module --- */

int program(void) __asm__("main");

/* Memory of a number of bytes: its address, or 0 where there isn't so much. */
EXPORTED(take) u32 take(u32 bytes) { return (u32)(size)allocate(bytes); }

/* Adds a word after those that were added; 0 where there are too many. */
EXPORTED(add_word) int add_word(u32 bytes, u32 length) {
  if (word_count == MOST_WORDS) return 0;
  words[word_count++] = (Text){(const byte *)(size)bytes, length};
  return 1;
}

/* Adds a file; 0 where there are too many. */
EXPORTED(add_file) int add_file(u32 name, u32 name_length, u32 bytes, u32 length) {
  if (file_count == MOST_FILES) return 0;
  files[file_count++] = (File){{(const byte *)(size)name, name_length}, {(const byte *)(size)bytes, length}};
  return 1;
}

/* Runs the program on the words and files; its exit status. */
EXPORTED(run) int run(void) { return program(); }

/* Where what was written stands, and how many bytes it has. */
EXPORTED(out) u32 out(void) { return (u32)(size)output; }

EXPORTED(out_size) u32 out_size(void) { return (u32)output_size; }

/* Where the name of a file stands that was opened and isn't there, and its length, or 0. */
EXPORTED(wanted) u32 wanted(void) { return (u32)(size)missing.bytes; }

EXPORTED(wanted_size) u32 wanted_size(void) { return (u32)missing.length; }
