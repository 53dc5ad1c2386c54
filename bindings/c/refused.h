/* What lets requests for memory fail in turn: a part of memory.c and handles_memory.c, which are linked with --wrap=malloc and the like, so
   that the library's requests come here. */
#ifndef REFUSED_H
#define REFUSED_H

#include <stddef.h>

void *__real_malloc(size_t size);
void *__real_calloc(size_t count, size_t size);
void *__real_realloc(void *block, size_t size);
int __real_posix_memalign(void **block, size_t alignment, size_t size);
void *__wrap_malloc(size_t size);
void *__wrap_calloc(size_t count, size_t size);
void *__wrap_realloc(void *block, size_t size);
int __wrap_posix_memalign(void **block, size_t alignment, size_t size);

/* How many requests are met before one is refused; none is where it is negative. */
static int before_refusal = -1;

static int is_refused(void) {
    return before_refusal >= 0 && before_refusal-- == 0;
}
void *__wrap_malloc(size_t size) {
    return is_refused() ? NULL : __real_malloc(size);
}
void *__wrap_calloc(size_t count, size_t size) {
    return is_refused() ? NULL : __real_calloc(count, size);
}
void *__wrap_realloc(void *block, size_t size) {
    return is_refused() ? NULL : __real_realloc(block, size);
}
int __wrap_posix_memalign(void **block, size_t alignment, size_t size) {
    return is_refused() ? 12 : __real_posix_memalign(block, alignment, size);
}

/* Lets one request be refused after so many that are met. */
static void refuse_after(int count) {
    before_refusal = count;
}

/* Whether one was refused since then; from here on none is. */
static int was_refused(void) {
    int was = before_refusal < 0;
    before_refusal = -1;
    return was;
}

#endif
