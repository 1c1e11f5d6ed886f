/* Stands between a program and the C library, and makes one call fail.

   FAULT_CALL  malloc, read, write or open: which call fails
   FAULT_AT    which of them, counted from 1; 0 for none
   FAULT_MARK  a file that is made when the call fails
   FAULT_PIECE the most bytes that a read or a write moves; 0 for no bound
   FAULT_AGAIN 1 where every other read and write is interrupted and moves nothing

   Reads and writes are counted where they move bytes of the standard streams or of files that the program opened itself. */
#define _GNU_SOURCE
#include <dlfcn.h>
#include <errno.h>
#include <fcntl.h>
#include <stdarg.h>
#include <stdatomic.h>
#include <stdlib.h>
#include <string.h>
#include <sys/syscall.h>
#include <unistd.h>

static atomic_long made, moved;

static long number(const char *name)
{
    const char *text = getenv(name);
    return text ? atol(text) : 0;
}

/* Whether this call is the one that fails. */
static int fails(const char *call)
{
    const char *wanted = getenv("FAULT_CALL");
    if (!wanted || strcmp(wanted, call) != 0)
        return 0;
    long at = number("FAULT_AT");
    if (at == 0 || atomic_fetch_add(&made, 1) + 1 != at)
        return 0;
    const char *mark = getenv("FAULT_MARK");
    if (mark)
        syscall(SYS_close, (int)syscall(SYS_open, mark, O_CREAT | O_WRONLY, 0600));
    return 1;
}

static int is_interrupted(void)
{
    return number("FAULT_AGAIN") && atomic_fetch_add(&moved, 1) % 2 == 0;
}

static size_t piece(size_t size)
{
    size_t most = (size_t)number("FAULT_PIECE");
    return most && size > most ? most : size;
}

void *malloc(size_t size)
{
    static void *(*real)(size_t);
    if (!real)
        real = (void *(*)(size_t))dlsym(RTLD_NEXT, "malloc");
    if (fails("malloc")) {
        errno = ENOMEM;
        return NULL;
    }
    return real(size);
}

void *realloc(void *old, size_t size)
{
    static void *(*real)(void *, size_t);
    if (!real)
        real = (void *(*)(void *, size_t))dlsym(RTLD_NEXT, "realloc");
    if (fails("malloc")) {
        errno = ENOMEM;
        return NULL;
    }
    return real(old, size);
}

ssize_t read(int file, void *bytes, size_t size)
{
    if (is_interrupted()) {
        errno = EINTR;
        return -1;
    }
    if (fails("read")) {
        errno = EIO;
        return -1;
    }
    return syscall(SYS_read, file, bytes, piece(size));
}

ssize_t write(int file, const void *bytes, size_t size)
{
    if (is_interrupted()) {
        errno = EINTR;
        return -1;
    }
    if (fails("write")) {
        errno = EIO;
        return -1;
    }
    return syscall(SYS_write, file, bytes, piece(size));
}

ssize_t __write(int file, const void *bytes, size_t size)
{
    return write(file, bytes, size);
}

int open(const char *path, int flags, ...)
{
    va_list rest;
    va_start(rest, flags);
    int mode = va_arg(rest, int);
    va_end(rest);
    if (fails("open")) {
        errno = EMFILE;
        return -1;
    }
    return (int)syscall(SYS_open, path, flags, mode);
}
