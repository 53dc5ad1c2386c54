/* Put before a program by LD_PRELOAD: refuses one request for memory, the one whose number REFUSE has, counted from the first read
   of the program on. Writes a byte to the file descriptor REFUSE_TOLD when it does. */
#define _GNU_SOURCE
#include <stddef.h>
#include <stdlib.h>
#include <sys/syscall.h>
#include <unistd.h>

extern void *__libc_malloc(size_t), *__libc_calloc(size_t, size_t), *__libc_realloc(void *, size_t);

static long left = -1;
static int has_begun;

static int refuses(void)
{
    if (left < 0 || left-- > 0)
        return 0;
    (void)!write(atoi(getenv("REFUSE_TOLD")), "", 1);
    return 1;
}

ssize_t read(int from, void *to, size_t count)
{
    if (!has_begun) {
        has_begun = 1;
        left = atol(getenv("REFUSE"));
    }
    return syscall(SYS_read, from, to, count);
}

void *malloc(size_t size)
{
    return refuses() ? NULL : __libc_malloc(size);
}

void *calloc(size_t count, size_t size)
{
    return refuses() ? NULL : __libc_calloc(count, size);
}

void *realloc(void *old, size_t size)
{
    return refuses() ? NULL : __libc_realloc(old, size);
}
