/* Loaded before the C library, refuses one call of malloc, realloc or calloc: the one whose number, from 1, stands in the
   environment under REFUSED_CALL. Where it is 0, none is refused, and each call is told by one byte on standard error.
   Calls are counted from when the program is loaded and set up. A refused call says so in errno, as the C library's own do: that library
   asks for it where a thread is started. */
#include <errno.h>
#include <stdatomic.h>
#include <stddef.h>
#include <stdlib.h>
#include <unistd.h>

extern void *__libc_malloc(size_t size);
extern void *__libc_realloc(void *block, size_t size);
extern void *__libc_calloc(size_t count, size_t size);

/* Below 0 until the program begins. */
static atomic_long refused = -1;
static atomic_long calls;

__attribute__((constructor)) static void begin(void) {
    const char *number = getenv("REFUSED_CALL");
    if (number != NULL) {
        refused = atol(number);
    }
}

static int is_refused(void) {
    if (refused < 0) {
        return 0;
    }
    if (refused == 0) {
        return write(STDERR_FILENO, ".", 1) < 0;
    }
    if (atomic_fetch_add(&calls, 1) + 1 != refused) {
        return 0;
    }
    errno = ENOMEM;
    return 1;
}

void *malloc(size_t size) {
    return is_refused() ? NULL : __libc_malloc(size);
}

void *realloc(void *block, size_t size) {
    return is_refused() ? NULL : __libc_realloc(block, size);
}

void *calloc(size_t count, size_t size) {
    return is_refused() ? NULL : __libc_calloc(count, size);
}
