/* Makes calls of the C library fail, as the environment says. To be preloaded.

   FAIL_OPEN, FAIL_READ, FAIL_WRITE, FAIL_ALLOC: the number, counted from 1, of the call of this kind that fails.
   FAIL_FROM: if set, each later call of the kind fails too.
   FAIL_ERRNO: the error of a failing open, read or write; EIO by default.
   FAIL_STREAM: the only descriptor whose writes are counted; 1 by default.
   ONE_BYTE: if set, each read and each write moves at most one byte.
   CALLS: a file to which the numbers of calls of each kind are written at the end. */
#define _GNU_SOURCE
#include <dlfcn.h>
#include <errno.h>
#include <fcntl.h>
#include <stdarg.h>
#include <stdio.h>
#include <stdlib.h>
#include <sys/types.h>
#include <unistd.h>

extern void *__libc_malloc(size_t);
extern void *__libc_calloc(size_t, size_t);
extern void *__libc_realloc(void *, size_t);

enum kind { OPEN, READ, WRITE, ALLOC, KINDS };
static const char *const NAMES[KINDS] = {"FAIL_OPEN", "FAIL_READ", "FAIL_WRITE", "FAIL_ALLOC"};
static long calls[KINDS];

static long number_of(const char *name, long other)
{
    const char *text = getenv(name);
    return text ? atol(text) : other;
}

static int fails(enum kind kind)
{
    long wanted = number_of(NAMES[kind], 0), now = ++calls[kind];
    if (wanted != now && !(wanted && now > wanted && getenv("FAIL_FROM")))
        return 0;
    errno = kind == ALLOC ? ENOMEM : (int)number_of("FAIL_ERRNO", EIO);
    return 1;
}

__attribute__((destructor)) static void tell(void)
{
    const char *path = getenv("CALLS");
    FILE *file = path ? fopen(path, "w") : NULL;
    if (file) {
        fprintf(file, "%ld %ld %ld %ld\n", calls[OPEN], calls[READ], calls[WRITE], calls[ALLOC]);
        fclose(file);
    }
}

#define OPENS(name)                                                                   \
    int name(const char *path, int flags, ...)                                        \
    {                                                                                 \
        static int (*real)(const char *, int, ...);                                   \
        va_list rest;                                                                 \
        va_start(rest, flags);                                                        \
        mode_t mode = flags & (O_CREAT | O_TMPFILE) ? va_arg(rest, mode_t) : 0;        \
        va_end(rest);                                                                 \
        if (!real)                                                                    \
            real = dlsym(RTLD_NEXT, #name);                                           \
        return fails(OPEN) ? -1 : real(path, flags, mode);                            \
    }
OPENS(open)
OPENS(open64)

#define OPENS_AT(name)                                                                \
    int name(int folder, const char *path, int flags, ...)                            \
    {                                                                                 \
        static int (*real)(int, const char *, int, ...);                              \
        va_list rest;                                                                 \
        va_start(rest, flags);                                                        \
        mode_t mode = flags & (O_CREAT | O_TMPFILE) ? va_arg(rest, mode_t) : 0;        \
        va_end(rest);                                                                 \
        if (!real)                                                                    \
            real = dlsym(RTLD_NEXT, #name);                                           \
        return fails(OPEN) ? -1 : real(folder, path, flags, mode);                    \
    }
OPENS_AT(openat)
OPENS_AT(openat64)

ssize_t read(int file, void *buffer, size_t size)
{
    static ssize_t (*real)(int, void *, size_t);
    if (!real)
        real = dlsym(RTLD_NEXT, "read");
    if (fails(READ))
        return -1;
    return real(file, buffer, getenv("ONE_BYTE") && size > 1 ? 1 : size);
}

ssize_t write(int file, const void *buffer, size_t size)
{
    static ssize_t (*real)(int, const void *, size_t);
    if (!real)
        real = dlsym(RTLD_NEXT, "write");
    if (file == number_of("FAIL_STREAM", 1) && fails(WRITE))
        return -1;
    return real(file, buffer, getenv("ONE_BYTE") && size > 1 ? 1 : size);
}

void *malloc(size_t size)
{
    return fails(ALLOC) ? NULL : __libc_malloc(size);
}

void *calloc(size_t count, size_t size)
{
    return fails(ALLOC) ? NULL : __libc_calloc(count, size);
}

void *realloc(void *old, size_t size)
{
    return fails(ALLOC) ? NULL : __libc_realloc(old, size);
}
