/* Texts with numbers in them: %d, %u, %x, %s, %c and %%, with a width and zeros before it, as in %08x. What is printed is kept, and
   put at the end of a line, when it is full, and at exit. */
#include "exos.h"
#include <stdarg.h>

enum { KEPT = 256, DIGITS = 12 };
static char kept[KEPT] __attribute__((aligned(KEPT))); /* in one page, as a put needs it */
static unsigned kept_length;

/* Puts what is kept: a put, 13 ticks, and 10 ticks where there is nothing. Where the console is full it is lost. */
void print_out(void)
{
    if (kept_length)
        aegis_put(kept, kept_length);
    kept_length = 0;
}

/* Ends the program, with what it printed: a put, an exit, 17 ticks where nothing is kept. */
void exit(int code)
{
    print_out();
    aegis_exit(code);
    for (;;)
        ;
}

/* Where characters go: into a text of some size, or to the console. */
struct out {
    int is_text;
    char *to;
    exos_size size, length;
};

static void write(struct out *out, char character)
{
    if (out->is_text) {
        if (out->length + 1 < out->size)
            out->to[out->length] = character;
    } else {
        kept[kept_length++] = character;
        if (character == '\n' || kept_length == KEPT)
            print_out();
    }
    out->length++;
}

static void write_padded(struct out *out, const char *text, unsigned length, unsigned width, char pad)
{
    for (; width > length; width--)
        write(out, pad);
    while (length--)
        write(out, *text++);
}

static void write_number(struct out *out, unsigned number, unsigned base, int is_below, unsigned width, char pad)
{
    char digits[DIGITS], *at = digits + DIGITS;
    do
        *--at = "0123456789abcdef"[number % base];
    while (number /= base);
    if (is_below && pad == '0') {
        write(out, '-');
        width -= width > 0;
    } else if (is_below)
        *--at = '-';
    write_padded(out, at, digits + DIGITS - at, width, pad);
}

/* One of %.., from behind the % on; it answers where the format goes on. */
static const char *write_one(struct out *out, const char *format, va_list *arguments)
{
    char pad = *format == '0' ? '0' : ' ';
    unsigned width = 0;
    for (; *format >= '0' && *format <= '9'; format++)
        width = 10 * width + (*format - '0');
    if (*format == 'd') {
        int number = va_arg(*arguments, int);
        write_number(out, number < 0 ? -(unsigned)number : (unsigned)number, 10, number < 0, width, pad);
    } else if (*format == 'u' || *format == 'x')
        write_number(out, va_arg(*arguments, unsigned), *format == 'u' ? 10 : 16, 0, width, pad);
    else if (*format == 's') {
        const char *text = va_arg(*arguments, const char *);
        write_padded(out, text, strlen(text), width, ' ');
    } else if (*format)
        write(out, *format == 'c' ? (char)va_arg(*arguments, int) : *format);
    return *format ? format + 1 : format;
}

static void write_all(struct out *out, const char *format, va_list *arguments)
{
    while (*format)
        if (*format == '%')
            format = write_one(out, format + 1, arguments);
        else
            write(out, *format++);
}

/* How many characters it printed. A put for each line: 447 ticks for one with a number of five digits. */
int printf(const char *format, ...)
{
    struct out out = {0, 0, 0, 0};
    va_list arguments;
    va_start(arguments, format);
    write_all(&out, format, &arguments);
    va_end(arguments);
    return out.length;
}

/* The same into a text, of which as much is kept as there is room for. It answers how long all of it is. Asks nothing: 317
   ticks for a number of five digits. */
int snprintf(char *to, exos_size size, const char *format, ...)
{
    struct out out = {1, to, size, 0};
    va_list arguments;
    va_start(arguments, format);
    write_all(&out, format, &arguments);
    va_end(arguments);
    if (size)
        to[out.length < size ? out.length : size - 1] = 0;
    return out.length;
}
