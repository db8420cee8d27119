/* Memory of the heap, of mmap, and by the operators of C++. A block is as long as malloc_usable_size says,
 * since a program may use all of it. To give a block back is a store to it. */
#include <dlfcn.h>
#include <malloc.h>
#include <stdarg.h>
#include <sys/mman.h>
#include "recorder.h"

void *__libc_malloc(size_t);
void *__libc_calloc(size_t, size_t);
void *__libc_realloc(void *, size_t);
void *__libc_memalign(size_t, size_t);
void __libc_free(void *);

/* By glibc's function: the blocks are its own, while the next of this name may be another allocator's. */
static size_t length_of(void *at) {
    static size_t (*found)(void *);
    if (!found) found = (size_t (*)(void *))dlvsym(RTLD_NEXT, "malloc_usable_size", "GLIBC_2.2.5");
    return found(at);
}
size_t malloc_usable_size(void *at) { return length_of(at); }

static void *given(void *at, uintptr_t place) {
    if (at && recording) record_block(BLOCK, at, length_of(at), place);
    return at;
}
static void give_back(void *at, uintptr_t place) {
    if (at && recording) record_freed(at, length_of(at), place);
    __libc_free(at);
}

void *allocate(size_t size, uintptr_t place) { return given(__libc_malloc(size), place); }

void *malloc(size_t size) { return given(__libc_malloc(size), PLACE); }
void *calloc(size_t count, size_t size) { return given(__libc_calloc(count, size), PLACE); }
void *memalign(size_t to, size_t size) { return given(__libc_memalign(to, size), PLACE); }
void *aligned_alloc(size_t to, size_t size) { return given(__libc_memalign(to, size), PLACE); }
void *valloc(size_t size) { return given(__libc_memalign((size_t)sysconf(_SC_PAGESIZE), size), PLACE); }
int posix_memalign(void **at, size_t to, size_t size) {
    if (to < sizeof(void *) || (to & (to - 1)) != 0) return EINVAL;
    void *got = given(__libc_memalign(to, size), PLACE);
    if (!got) return ENOMEM;
    *at = got;
    return 0;
}
void free(void *at) { give_back(at, PLACE); }
void cfree(void *at) { give_back(at, PLACE); }

/* The old block ends where the new one begins, also where both lie at the same place. */
static void *moved(void *old, size_t size, uintptr_t place) {
    if (!old || !recording) return given(__libc_realloc(old, size), place);
    record_freed(old, length_of(old), place);
    void *at = __libc_realloc(old, size);
    if (!at && size) record_block(BLOCK, old, length_of(old), place);
    return given(at, place);
}
void *realloc(void *old, size_t size) { return moved(old, size, PLACE); }
void *reallocarray(void *old, size_t count, size_t size) {
    size_t all;
    if (__builtin_mul_overflow(count, size, &all)) {
        errno = ENOMEM;
        return NULL;
    }
    return moved(old, all, PLACE);
}

/* The operators of C++, by the names that its compilers give them. Where there is no memory, the library's
 * own throws. */
struct nothrow;
#define NEW(name, parameters, arguments, got)                                                                \
    void *name parameters;                                                                                   \
    void *name parameters {                                                                                  \
        void *at = given(got, PLACE);                                                                        \
        return at ? at : REAL(name) arguments;                                                               \
    }
NEW(_Znwm, (size_t size), (size), __libc_malloc(size))
NEW(_Znam, (size_t size), (size), __libc_malloc(size))
NEW(_ZnwmRKSt9nothrow_t, (size_t size, struct nothrow *no), (size, no), __libc_malloc(size))
NEW(_ZnamRKSt9nothrow_t, (size_t size, struct nothrow *no), (size, no), __libc_malloc(size))
NEW(_ZnwmSt11align_val_t, (size_t size, size_t to), (size, to), __libc_memalign(to, size))
NEW(_ZnamSt11align_val_t, (size_t size, size_t to), (size, to), __libc_memalign(to, size))
NEW(_ZnwmSt11align_val_tRKSt9nothrow_t, (size_t size, size_t to, struct nothrow *no), (size, to, no),
    __libc_memalign(to, size))
NEW(_ZnamSt11align_val_tRKSt9nothrow_t, (size_t size, size_t to, struct nothrow *no), (size, to, no),
    __libc_memalign(to, size))

#define DELETE(name, parameters)                                                                             \
    void name parameters;                                                                                    \
    void name parameters { give_back(at, PLACE); }
#define DELETE_MORE(name, type)                                                                              \
    void name(void *at, type more);                                                                          \
    void name(void *at, type more) {                                                                         \
        (void)more;                                                                                          \
        give_back(at, PLACE);                                                                                \
    }
#define DELETE_MOST(name, type, other)                                                                       \
    void name(void *at, type more, other most);                                                              \
    void name(void *at, type more, other most) {                                                             \
        (void)more;                                                                                          \
        (void)most;                                                                                          \
        give_back(at, PLACE);                                                                                \
    }
DELETE(_ZdlPv, (void *at))
DELETE(_ZdaPv, (void *at))
DELETE_MORE(_ZdlPvm, size_t)
DELETE_MORE(_ZdaPvm, size_t)
DELETE_MORE(_ZdlPvRKSt9nothrow_t, struct nothrow *)
DELETE_MORE(_ZdaPvRKSt9nothrow_t, struct nothrow *)
DELETE_MORE(_ZdlPvSt11align_val_t, size_t)
DELETE_MORE(_ZdaPvSt11align_val_t, size_t)
DELETE_MOST(_ZdlPvmSt11align_val_t, size_t, size_t)
DELETE_MOST(_ZdaPvmSt11align_val_t, size_t, size_t)
DELETE_MOST(_ZdlPvSt11align_val_tRKSt9nothrow_t, size_t, struct nothrow *)
DELETE_MOST(_ZdaPvSt11align_val_tRKSt9nothrow_t, size_t, struct nothrow *)

/* Memory of mmap. What is given back has its time kept, so that who gets it next comes later. */
static void *mapped(void *at, size_t size, uintptr_t place) {
    if (at != MAP_FAILED && recording) record_block(MAP, at, size, place);
    return at;
}
static void unmap(void) {
    if (self && recording) raise_time(stripe_of(0), self->time + 1);
}
void *mmap(void *at, size_t size, int protection, int flags, int file, off_t offset) {
    return mapped(REAL(mmap)(at, size, protection, flags, file, offset), size, PLACE);
}
void *mmap64(void *at, size_t size, int protection, int flags, int file, off64_t offset) {
    return mapped(REAL(mmap64)(at, size, protection, flags, file, offset), size, PLACE);
}
int munmap(void *at, size_t size) {
    unmap();
    return REAL(munmap)(at, size);
}
void *mremap(void *old, size_t old_size, size_t size, int flags, ...) {
    va_list rest;
    va_start(rest, flags);
    void *to = flags & MREMAP_FIXED ? va_arg(rest, void *) : NULL;
    va_end(rest);
    unmap();
    return mapped(REAL(mremap)(old, old_size, size, flags, to), size, PLACE);
}
