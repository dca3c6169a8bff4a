/* Files for newlib.c: those that are linked to the program, to be read. Nothing here asks the kernel for anything. */
#include <errno.h>
#include <fcntl.h>
#include <string.h>
#include <sys/stat.h>
#include <unistd.h>

/* Where the program has such a table, which ends with a name of 0. The file named stdin is the standard input. */
struct newlib_file {
    const char *name, *bytes, *end;
};
extern const struct newlib_file newlib_files[] __attribute__((weak));

enum { FILES = 8, CONSOLES = 3 }; /* descriptors: 0 is the standard input, 1 and 2 are the console */

static struct {
    const struct newlib_file *file;
    const char *next;
} opened[FILES];

static int fails(int why)
{
    errno = why;
    return -1;
}

static const struct newlib_file *file_of(const char *name)
{
    const struct newlib_file *file = newlib_files;
    while (file && file->name && strcmp(file->name, name))
        file++;
    return file && file->name ? file : 0;
}

static int is_open(int one)
{
    if (one == 0 && !opened[0].file && (opened[0].file = file_of("stdin")))
        opened[0].next = opened[0].file->bytes;
    return one >= 0 && one < FILES && opened[one].file;
}

int open(const char *name, int how, ...)
{
    const struct newlib_file *file = file_of(name);
    if (!file || (how & O_ACCMODE) != O_RDONLY)
        return fails(file ? EROFS : ENOENT);
    for (int one = CONSOLES; one < FILES; one++)
        if (!opened[one].file) {
            opened[one].file = file;
            opened[one].next = file->bytes;
            return one;
        }
    return fails(EMFILE);
}

/* Where nothing is open it is at its end. */
int read(int from, void *bytes, size_t most)
{
    if (!is_open(from))
        return 0;
    size_t left = opened[from].file->end - opened[from].next, length = left < most ? left : most;
    memcpy(bytes, opened[from].next, length);
    opened[from].next += length;
    return length;
}

off_t lseek(int in, off_t to, int whence)
{
    if (!is_open(in))
        return fails(ESPIPE);
    const struct newlib_file *file = opened[in].file;
    off_t at = to + (whence == SEEK_SET ? 0 : whence == SEEK_CUR ? opened[in].next - file->bytes : file->end - file->bytes);
    if (at < 0 || at > file->end - file->bytes)
        return fails(EINVAL);
    opened[in].next = file->bytes + at;
    return at;
}

int close(int one)
{
    if (is_open(one))
        opened[one].file = 0;
    return 0;
}

int fstat(int one, struct stat *what)
{
    memset(what, 0, sizeof *what);
    what->st_mode = is_open(one) ? S_IFREG : S_IFCHR;
    what->st_size = is_open(one) ? opened[one].file->end - opened[one].file->bytes : 0;
    return 0;
}

int access(const char *name, int how)
{
    (void)how;
    return file_of(name) ? 0 : fails(ENOENT);
}

int link(const char *old, const char *new)
{
    (void)old, (void)new;
    return fails(EROFS);
}

int unlink(const char *name)
{
    (void)name;
    return fails(EROFS);
}
