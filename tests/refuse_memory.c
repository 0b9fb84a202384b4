/* Refuses a program memory. It is loaded before the C library (LD_PRELOAD): of the requests that are made once the program has
 * begun, that of the number REFUSED gives no memory, and where REFUSE_ON is set none behind it does. A byte to the descriptor 9
 * tells that a request was refused. */
#include <errno.h>
#include <stdatomic.h>
#include <stddef.h>
#include <stdlib.h>
#include <unistd.h>

void *__libc_malloc(size_t);
void *__libc_calloc(size_t, size_t);
void *__libc_realloc(void *, size_t);
void *__libc_memalign(size_t, size_t);

static atomic_long asked;
static long refused;
static int refuse_on;

__attribute__((constructor)) static void begin(void) {
    const char *number = getenv("REFUSED");
    refuse_on = getenv("REFUSE_ON") != NULL;
    refused = number ? atol(number) : 0;
}

static int is_refused(void) {
    if (refused == 0) return 0;
    long at = atomic_fetch_add(&asked, 1) + 1;
    if (at != refused && !(refuse_on && at > refused)) return 0;
    if (at == refused && write(9, "r", 1) != 1) _exit(99);
    errno = ENOMEM;
    return 1;
}

void *malloc(size_t size) { return is_refused() ? NULL : __libc_malloc(size); }
void *calloc(size_t count, size_t size) { return is_refused() ? NULL : __libc_calloc(count, size); }
void *realloc(void *old, size_t size) { return is_refused() ? NULL : __libc_realloc(old, size); }
void *memalign(size_t align, size_t size) { return is_refused() ? NULL : __libc_memalign(align, size); }
void *aligned_alloc(size_t align, size_t size) { return memalign(align, size); }

int posix_memalign(void **place, size_t align, size_t size) {
    void *got = memalign(align, size);
    if (got == NULL) return ENOMEM;
    *place = got;
    return 0;
}
