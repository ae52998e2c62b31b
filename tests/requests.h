/* Requests for memory that a caller in C counts, and of which it can have one refused. The linker puts the functions __wrap_.. into the place of
 * the system's. */
#include <stddef.h>

/* How many requests for memory a call has made, which one is refused (the first is 1), and how many pieces are held. */
static size_t requests, refused, held;

void *__real_malloc(size_t size);
void *__real_realloc(void *old, size_t size);
void __real_free(void *old);

void *__wrap_malloc(size_t size) {
    void *made = ++requests == refused ? NULL : __real_malloc(size);
    held += made != NULL;
    return made;
}

void *__wrap_realloc(void *old, size_t size) {
    void *made = ++requests == refused ? NULL : __real_realloc(old, size);
    held += old == NULL && made != NULL;
    return made;
}

void __wrap_free(void *old) {
    held -= old != NULL;
    __real_free(old);
}
