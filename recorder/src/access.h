/* The path of an access, which each load and store of the program takes. */
#ifndef ACCESS_H
#define ACCESS_H
#include <x86intrin.h>
#include "recorder.h"

/* The time of an access, and the time of an event that orders threads: `rdtscp` waits for what came before
 * it, so an acquire's time is not before the lock was got. */
static inline uint64_t clock_soon(void) {
    if (has_stamp) return __rdtsc() - clock_start;
    return __atomic_add_fetch(&clock_counter, 1, __ATOMIC_SEQ_CST);
}
static inline uint64_t clock_now(void) {
    unsigned processor;
    if (has_stamp) return __rdtscp(&processor) - clock_start;
    return __atomic_add_fetch(&clock_counter, 1, __ATOMIC_SEQ_CST);
}

/* Takes a place for an event. One instruction, so that a signal's handler takes another place. */
static inline struct event *take_place(struct thread *thread) {
    uint64_t step = sizeof(struct event);
    __asm__ volatile("xaddq %0, %1" : "+r"(step), "+m"(thread->next) : : "cc", "memory");
    return (struct event *)step;
}

static inline void fill(struct event *event, enum kind kind, uint64_t address, uint64_t size, uint64_t place,
                        uint32_t stack, uint64_t time) {
    event->words[0] = (address & 0xffffffffffff) | (uint64_t)(stack & 0xffff) << 48;
    event->words[1] = (place & 0xffffffffffff) | (uint64_t)(stack >> 16) << 48;
    __atomic_store_n(&event->words[2], (time & 0xffffffffffff) | (uint64_t)kind << 48 | size << 54,
                     __ATOMIC_RELEASE);
}

/* Whether this is the number of the latest access of each of these bytes, which it is from now on. */
static inline int is_latest(uint64_t address, uint64_t size, uint64_t number) {
    int is_same = 1;
    for (uint64_t at = address / 8; at <= (address + size - 1) / 8; at++) {
        uint64_t *kept = &latest_accesses[at % LATEST];
        if (__atomic_load_n(kept, __ATOMIC_RELAXED) == number) continue;
        __atomic_store_n(kept, number, __ATOMIC_RELAXED);
        is_same = 0;
    }
    return is_same;
}

__extension__ typedef unsigned __int128 product;

/* A number, which is odd, that an access has in common with those that it repeats alone. */
static inline uint64_t number_of(struct thread *thread, enum kind kind, uint64_t address, uint64_t size,
                                 uint64_t place, uint32_t stack) {
    uint64_t what = address | size << 48 | (uint64_t)kind << 58;
    uint64_t where = place + stack * 0xc2b2ae3d27d4eb4f;
    uint64_t when = (thread->others + renewals) * 0xff51afd7ed558ccd;
    product all = (product)(what ^ 0x9e3779b97f4a7c15) * (where ^ when);
    return ((uint64_t)(all >> 64) ^ (uint64_t)all) | 1;
}

/* Whether the access is left out (repeats.c). */
static inline int is_repeated(struct thread *thread, enum kind kind, uint64_t address, uint64_t size,
                              uint64_t place, uint32_t stack) {
    uint64_t number = number_of(thread, kind, address, size, place, stack);
    if (!options.keeps_less) return is_latest(address, size, number) && !thread->held;
    uint64_t *kept = &thread->recent[number >> 51];
    uint64_t before = *kept;
    *kept = number;
    return before == number;
}

static inline void record_access(enum kind kind, uintptr_t address, uint64_t size, uintptr_t place) {
    struct thread *thread = self;
    if (__builtin_expect(!thread, 0)) {
        thread = own_thread();
        if (!thread) return;
    }
    if (__builtin_expect(thread->ignored || !recording, 0)) return;
    uint32_t stack = stack_now(thread);
    if (!options.keeps_all && is_repeated(thread, kind, address, size, place, stack)) return;
    if (__builtin_expect(thread->next >= thread->limit, 0)) {
        refill(thread);
        if (!recording) return;
    }
    uint64_t time = clock_soon();
    if (time < thread->time) time = thread->time;
    thread->time = time;
    fill(take_place(thread), kind, address, size, place, stack, time);
}
#endif
