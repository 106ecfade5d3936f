/* As much of a C library as the examples and tests need, for Linux on AArch64, big-endian. */
#include <stdarg.h>
#include <stdint.h>
#include <stdio.h>
#include <stdlib.h>
#include <string.h>
#include <sys/mman.h>

enum { WRITE = 64, EXIT_GROUP = 94, MUNMAP = 215, MMAP = 222, MPROTECT = 226 }; /* system calls */

static long system_call(long number, long a, long b, long c, long d, long e, long f)
{
    register long x8 __asm__("x8") = number, x0 __asm__("x0") = a, x1 __asm__("x1") = b, x2 __asm__("x2") = c;
    register long x3 __asm__("x3") = d, x4 __asm__("x4") = e, x5 __asm__("x5") = f;
    __asm__ volatile("svc 0" : "+r"(x0) : "r"(x8), "r"(x1), "r"(x2), "r"(x3), "r"(x4), "r"(x5) : "memory");
    return x0;
}

void *memcpy(void *restrict to, const void *restrict from, size_t n)
{
    char *t = to;
    const char *f = from;
    while (n--)
        *t++ = *f++;
    return to;
}

void *memmove(void *to, const void *from, size_t n)
{
    char *t = to;
    const char *f = from;
    for (size_t i = 0; t < f && i < n; i++)
        t[i] = f[i];
    for (size_t i = n; t > f && i > 0; i--)
        t[i - 1] = f[i - 1];
    return to;
}

void *memset(void *to, int value, size_t n)
{
    char *t = to;
    while (n--)
        *t++ = (char)value;
    return to;
}

int memcmp(const void *a, const void *b, size_t n)
{
    const unsigned char *p = a, *q = b;
    for (; n > 0; n--, p++, q++)
        if (*p != *q)
            return *p - *q;
    return 0;
}

void exit(int status)
{
    for (;;)
        system_call(EXIT_GROUP, status, 0, 0, 0, 0, 0);
}

void *mmap(void *at, size_t len, int protection, int flags, int file, off_t offset)
{
    long got = system_call(MMAP, (long)at, (long)len, protection, flags, file, offset);
    return got < 0 ? MAP_FAILED : (void *)got;
}

int mprotect(void *at, size_t len, int protection)
{
    return (int)system_call(MPROTECT, (long)at, (long)len, protection, 0, 0, 0);
}

int munmap(void *at, size_t len)
{
    return (int)system_call(MUNMAP, (long)at, (long)len, 0, 0, 0, 0);
}

/* Pages of its own for each; their length stands in front. */
enum { FRONT = 16 };

void *malloc(size_t len)
{
    size_t *pages = mmap(NULL, len + FRONT, PROT_READ | PROT_WRITE, MAP_PRIVATE | MAP_ANONYMOUS, -1, 0);
    if (pages == MAP_FAILED)
        return NULL;
    *pages = len + FRONT;
    return (char *)pages + FRONT;
}

void free(void *given)
{
    if (given != NULL) {
        size_t *pages = (size_t *)((char *)given - FRONT);
        munmap(pages, *pages);
    }
}

/* %s, and %u, %d of no negative number and %x with l, ll or z and a width that is filled up with zeros. */
static int print(int file, const char *format, va_list arguments)
{
    char out[1024];
    size_t n = 0;
    for (; *format; format++) {
        if (*format != '%') {
            out[n++] = *format;
            continue;
        }
        int width = 0, is_long = 0, count = 0;
        for (format++; *format >= '0' && *format <= '9'; format++)
            width = 10 * width + *format - '0';
        for (; *format == 'l' || *format == 'z'; format++)
            is_long = 1;
        if (*format == 's') {
            for (const char *text = va_arg(arguments, const char *); *text; text++)
                out[n++] = *text;
            continue;
        }
        uint64_t number = is_long ? va_arg(arguments, uint64_t) : va_arg(arguments, unsigned);
        unsigned base = *format == 'x' ? 16 : 10;
        char digits[32];
        do
            digits[count++] = "0123456789abcdef"[number % base];
        while ((number /= base) > 0);
        while (count < width)
            digits[count++] = '0';
        while (count > 0)
            out[n++] = digits[--count];
    }
    system_call(WRITE, file, (long)out, (long)n, 0, 0, 0);
    return (int)n;
}

int printf(const char *restrict format, ...)
{
    va_list arguments;
    va_start(arguments, format);
    int n = print(1, format, arguments);
    va_end(arguments);
    return n;
}

FILE *stderr; /* the only one that is printed to by name */

int fprintf(FILE *restrict file, const char *restrict format, ...)
{
    va_list arguments;
    (void)file;
    va_start(arguments, format);
    int n = print(2, format, arguments);
    va_end(arguments);
    return n;
}

void perror(const char *what)
{
    fprintf(stderr, "%s failed\n", what);
}

int main(void);
__asm__(".globl _start\n_start: mov x29, 0\n mov x30, 0\n bl begin");
void begin(void);
void begin(void)
{
    exit(main());
}
