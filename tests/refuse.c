// A library to be loaded before a program's own (LD_PRELOAD): it refuses the program memory.
//
//   REFUSE_IN=NAME  only in programs of this name
//   REFUSE_AT=N     the Nth request for memory is refused
//   REFUSE_FROM=N   the Nth and each later one
//   REFUSED=FILE    a line is added to this file, which is there, at the first refusal
//
// Requests are counted from 1 on. What gives memory back is never refused, and neither is a request for less
// than what a block has.
#define _GNU_SOURCE
#include <errno.h>
#include <fcntl.h>
#include <limits.h>
#include <malloc.h>
#include <stdatomic.h>
#include <stdlib.h>
#include <string.h>
#include <unistd.h>

extern void *__libc_malloc(size_t);
extern void *__libc_calloc(size_t, size_t);
extern void *__libc_realloc(void *, size_t);
extern void *__libc_memalign(size_t, size_t);

static atomic_ulong requests;
// The requests that are refused.
static unsigned long first, last;

__attribute__((constructor)) static void begin(void) {
    const char *name = getenv("REFUSE_IN"), *at = getenv("REFUSE_AT"), *from = getenv("REFUSE_FROM");
    if (name && strcmp(name, program_invocation_short_name) == 0 && (at || from)) {
        first = strtoul(at ? at : from, NULL, 10);
        last = at ? first : ULONG_MAX;
    }
    atomic_store(&requests, 0);
}

// Whether this request is refused.
static int is_refused(void) {
    unsigned long n = atomic_fetch_add(&requests, 1) + 1;
    if (n < first || n > last) return 0;
    int file = n == first ? open(getenv("REFUSED"), O_WRONLY | O_APPEND) : -1;
    if (file >= 0) {
        ssize_t written = write(file, "\n", 1);
        (void)written;
        close(file);
    }
    errno = ENOMEM;
    return 1;
}

void *malloc(size_t size) { return is_refused() ? NULL : __libc_malloc(size); }

void *calloc(size_t count, size_t size) { return is_refused() ? NULL : __libc_calloc(count, size); }

void *realloc(void *block, size_t size) {
    if (block && size <= malloc_usable_size(block)) return __libc_realloc(block, size);
    return is_refused() ? NULL : __libc_realloc(block, size);
}

void *memalign(size_t alignment, size_t size) {
    return is_refused() ? NULL : __libc_memalign(alignment, size);
}

void *aligned_alloc(size_t alignment, size_t size) { return memalign(alignment, size); }

int posix_memalign(void **block, size_t alignment, size_t size) {
    if (is_refused()) return ENOMEM;
    *block = __libc_memalign(alignment, size);
    return *block ? 0 : ENOMEM;
}
