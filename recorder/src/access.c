/* The calls that the compiler puts before each load and store, and at the ends of each function. */
#include "access.h"

#define ACCESS(prefix, size)                                                                                 \
    void __tsan_##prefix##read##size(void *at) { record_access(READ, (uintptr_t)at, size, PLACE); }          \
    void __tsan_##prefix##write##size(void *at) { record_access(WRITE, (uintptr_t)at, size, PLACE); }
#define SIZES(prefix)                                                                                        \
    ACCESS(prefix, 1) ACCESS(prefix, 2) ACCESS(prefix, 4) ACCESS(prefix, 8) ACCESS(prefix, 16)
SIZES()
SIZES(unaligned_)
SIZES(volatile_)
SIZES(unaligned_volatile_)

/* A load and a store of the same place, as `n++` makes them. */
#define BOTH(prefix, size)                                                                                   \
    void __tsan_##prefix##read_write##size(void *at) {                                                       \
        record_access(READ, (uintptr_t)at, size, PLACE);                                                     \
        record_access(WRITE, (uintptr_t)at, size, PLACE);                                                    \
    }
BOTH(, 1)
BOTH(, 2)
BOTH(, 4)
BOTH(, 8)
BOTH(, 16)
BOTH(unaligned_, 2)
BOTH(unaligned_, 4)
BOTH(unaligned_, 8)
BOTH(unaligned_, 16)

#define AT_PLACE(size)                                                                                       \
    void __tsan_read##size##_pc(void *at, void *place) {                                                     \
        record_access(READ, (uintptr_t)at, size, (uintptr_t)place);                                          \
    }                                                                                                        \
    void __tsan_write##size##_pc(void *at, void *place) {                                                    \
        record_access(WRITE, (uintptr_t)at, size, (uintptr_t)place);                                         \
    }
AT_PLACE(1)
AT_PLACE(2)
AT_PLACE(4)
AT_PLACE(8)
AT_PLACE(16)

void __tsan_read_range(void *at, unsigned long size) { record_range(READ, at, size, PLACE); }
void __tsan_write_range(void *at, unsigned long size) { record_range(WRITE, at, size, PLACE); }
void __tsan_read_range_pc(void *at, unsigned long size, void *place) {
    record_range(READ, at, size, (uintptr_t)place);
}
void __tsan_write_range_pc(void *at, unsigned long size, void *place) {
    record_range(WRITE, at, size, (uintptr_t)place);
}
void __tsan_vptr_read(void **at) { record_access(READ, (uintptr_t)at, sizeof *at, PLACE); }
/* A destructor stores the pointer that stands there already: no store. */
void __tsan_vptr_update(void **at, void *value) {
    if (*at != value) record_access(WRITE, (uintptr_t)at, sizeof *at, PLACE);
}

#define MISALIGNED(bits, type)                                                                               \
    type __sanitizer_unaligned_load##bits(const type *at) {                                                  \
        type value;                                                                                          \
        record_access(READ, (uintptr_t)at, sizeof *at, PLACE);                                               \
        __builtin_memcpy(&value, at, sizeof value);                                                          \
        return value;                                                                                        \
    }                                                                                                        \
    void __sanitizer_unaligned_store##bits(type *at, type value) {                                           \
        record_access(WRITE, (uintptr_t)at, sizeof *at, PLACE);                                              \
        __builtin_memcpy(at, &value, sizeof value);                                                          \
    }
MISALIGNED(16, uint16_t)
MISALIGNED(32, uint32_t)
MISALIGNED(64, uint64_t)

/* Whether the call's frame lies on the thread's own stack: on another, the order of frames says nothing. */
static int is_on_stack(const struct thread *thread, uintptr_t frame) {
    return frame >= thread->low && frame < thread->high;
}

/* Frames at or below the new one were left by a longjmp. */
void __tsan_func_entry(void *caller) {
    struct thread *thread = self;
    uintptr_t frame = HERE;
    if (!thread || !options.has_stacks) return;
    if (is_on_stack(thread, frame)) {
        while (thread->depth && thread->frames[thread->depth - 1].pointer <= frame &&
               is_on_stack(thread, thread->frames[thread->depth - 1].pointer))
            thread->depth--;
    }
    if (thread->depth == FRAMES) {
        thread->beyond++;
        return;
    }
    struct frame *top = &thread->frames[thread->depth];
    top->pointer = frame;
    top->caller = (uintptr_t)caller;
    top->stack = 0;
    thread->depth++;
}

void __tsan_func_exit(void) {
    struct thread *thread = self;
    if (!thread) return;
    if (thread->beyond) thread->beyond--;
    else if (thread->depth) thread->depth--;
}
