/* A malloc that refuses one request: the one whose number REFUSE gives. At the end of the program the number of requests is
   written to standard error where COUNT is set. */
#include <errno.h>
#include <stddef.h>
#include <stdio.h>
#include <stdlib.h>
#include <unistd.h>

extern void *__libc_malloc(size_t size);
extern void *__libc_calloc(size_t count, size_t size);
extern void *__libc_realloc(void *old, size_t size);
extern void *__libc_memalign(size_t alignment, size_t size);

static long requests, refused = -1;
static int counts;

__attribute__((constructor)) static void start(void) {
    const char *number = getenv("REFUSE");
    if (number != NULL) {
        refused = atol(number);
    }
    counts = getenv("COUNT") != NULL;
    requests = 0;
}

__attribute__((destructor)) static void end(void) {
    char line[32];
    int length = snprintf(line, sizeof line, "%ld requests\n", requests);
    if (counts && write(2, line, (size_t)length) != length) {
        _exit(99);
    }
}

static int refuses(void) {
    requests++;
    if (requests != refused) {
        return 0;
    }
    errno = ENOMEM;
    return 1;
}

void *malloc(size_t size) { return refuses() ? NULL : __libc_malloc(size); }

void *calloc(size_t count, size_t size) { return refuses() ? NULL : __libc_calloc(count, size); }

void *realloc(void *old, size_t size) { return refuses() ? NULL : __libc_realloc(old, size); }

void *aligned_alloc(size_t alignment, size_t size) { return refuses() ? NULL : __libc_memalign(alignment, size); }

int posix_memalign(void **place, size_t alignment, size_t size) {
    if (refuses()) {
        return ENOMEM;
    }
    *place = __libc_memalign(alignment, size);
    return *place == NULL ? ENOMEM : 0;
}
