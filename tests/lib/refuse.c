/* Preloaded into derview: reads and writes that fail, take few octets, take none or are interrupted, and refused requests
   for memory. The environment says which:
     READ_PIECE, WRITE_PIECE    each takes at most so many octets
     READ_FAILS, WRITE_FAILS    the call of this number, counted from 1, and each later one, fails
     WRITE_TAKES_NONE           the call of this number, and each later one, takes no octet
     INTERRUPTED=1              each other call is interrupted
     MEMORY_FAILS               the request for memory of this number is refused
     MEMORY_STAYS_REFUSED=1     and each later one
   Reads are of standard input, writes of standard output. Requests for memory are seen only in a program that takes
   malloc from the C library, as `rt run` builds it. */
#define _GNU_SOURCE
#include <errno.h>
#include <stddef.h>
#include <stdlib.h>
#include <sys/syscall.h>
#include <unistd.h>

void *__libc_malloc(size_t);
void *__libc_realloc(void *, size_t);

static long number(const char *name)
{
    const char *text = getenv(name);

    return text ? atol(text) : 0;
}

static int is_interrupted(void)
{
    static int turn;

    return number("INTERRUPTED") && (turn = !turn);
}

ssize_t read(int file, void *octets, size_t count)
{
    static long calls;

    if (file == 0) {
        if (is_interrupted())
            return errno = EINTR, -1;
        if (number("READ_FAILS") && ++calls >= number("READ_FAILS"))
            return errno = EIO, -1;
        if (number("READ_PIECE") && count > (size_t)number("READ_PIECE"))
            count = number("READ_PIECE");
    }
    return syscall(SYS_read, file, octets, count);
}

ssize_t write(int file, const void *octets, size_t count)
{
    static long calls;

    if (file == 1) {
        if (is_interrupted())
            return errno = EINTR, -1;
        calls++;
        if (number("WRITE_FAILS") && calls >= number("WRITE_FAILS"))
            return errno = EIO, -1;
        if (number("WRITE_TAKES_NONE") && calls >= number("WRITE_TAKES_NONE"))
            return 0;
        if (number("WRITE_PIECE") && count > (size_t)number("WRITE_PIECE"))
            count = number("WRITE_PIECE");
    }
    return syscall(SYS_write, file, octets, count);
}

static int is_refused(void)
{
    static long calls;
    long fails = number("MEMORY_FAILS");

    if (fails == 0)
        return 0;
    calls++;
    return calls == fails || (calls > fails && number("MEMORY_STAYS_REFUSED"));
}

void *malloc(size_t size)
{
    return is_refused() ? (errno = ENOMEM, NULL) : __libc_malloc(size);
}

void *realloc(void *place, size_t size)
{
    return is_refused() ? (errno = ENOMEM, NULL) : __libc_realloc(place, size);
}
