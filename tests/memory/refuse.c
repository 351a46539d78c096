/*
 * Loaded before a program: refuses its request for memory that has the number in REFUSED_REQUEST, counted from 1, or each
 * where that says "each", and makes the file that REFUSED_FILE names once one was refused. The others pass.
 */
#define _GNU_SOURCE
#include <dlfcn.h>
#include <errno.h>
#include <fcntl.h>
#include <stddef.h>
#include <stdlib.h>
#include <string.h>
#include <unistd.h>

extern void *__libc_malloc(size_t);
extern void *__libc_calloc(size_t, size_t);
extern void *__libc_realloc(void *, size_t);
extern void *__libc_memalign(size_t, size_t);

static long left = -1;
static int refuses_each;

/* Whether this request is one to be refused. */
static int refuses(void) {
    if (left < 0) {
        const char *number = getenv("REFUSED_REQUEST");
        refuses_each = number && !strcmp(number, "each");
        left = number ? atol(number) : 0;
    }
    if (!refuses_each && (left == 0 || --left > 0)) return 0;
    const char *file = getenv("REFUSED_FILE");
    int made = file ? open(file, O_CREAT | O_WRONLY, 0600) : -1;
    if (made >= 0) close(made);
    errno = ENOMEM;
    return 1;
}

void *malloc(size_t size) { return refuses() ? NULL : __libc_malloc(size); }
void *calloc(size_t count, size_t size) { return refuses() ? NULL : __libc_calloc(count, size); }
void *realloc(void *old, size_t size) { return refuses() ? NULL : __libc_realloc(old, size); }
void *memalign(size_t alignment, size_t size) { return refuses() ? NULL : __libc_memalign(alignment, size); }
void *aligned_alloc(size_t alignment, size_t size) { return memalign(alignment, size); }
int posix_memalign(void **out, size_t alignment, size_t size) {
    void *at = memalign(alignment, size);
    if (at) *out = at;
    return at ? 0 : ENOMEM;
}
