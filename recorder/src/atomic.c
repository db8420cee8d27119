/* Atomic operations. An operation and the keeping of its event are one step, under a lock that the addresses
 * of a stripe share: so the times of a variable's events are the order of its operations. A handler of a
 * signal that comes within a step makes its operation without one. */
#include "access.h"

static uint64_t size_with(uint64_t bytes, int order) { return bytes + ORDERS * (uint64_t)(order & 7); }

static struct stripe *enter(const volatile void *at) {
    if (is_in_step || !recording || (!self && !own_thread())) return NULL;
    struct stripe *stripe = stripe_of((uintptr_t)at);
    is_in_step = 1;
    lock_stripe(stripe);
    return stripe;
}

/* A number that an operation by which nothing changes has in common with those that it repeats. */
static uint64_t number_of_same(struct thread *thread, enum kind kind, uintptr_t address, uint64_t size,
                               uintptr_t place) {
    uint64_t what = (address << 6 | kind) * 0x9e3779b97f4a7c15;
    what ^= (place ^ (uint64_t)stack_now(thread) << 40) * 0xc2b2ae3d27d4eb4f;
    return ((what ^ what >> 29) + size) * 0xff51afd7ed558ccd | 1;
}

/* An operation that changes nothing: a load, or an update that stores what was there and publishes nothing.
 * Where the thread made it before, and the stripe did not change since, it orders nothing anew. It is left
 * out where besides the thread had only accesses and such operations since: a loop that waits for a store
 * would fill the memory. */
static void record_same(struct stripe *stripe, enum kind kind, uintptr_t address, uint64_t size,
                        uintptr_t place) {
    struct thread *thread = self;
    uint64_t what = number_of_same(thread, kind, address, size, place);
    struct load *kept = &thread->loads[what >> 56];
    int is_known = kept->what == what && kept->changes == stripe->changes;
    if (is_known && kept->others == thread->others) return;
    record_sync(kind, address, size, place);
    if (is_known) thread->others--;
    *kept = (struct load){ what, stripe->changes, thread->others };
}

/* Whether a load that was made without a step is to be left out as above, so that it needs none. A store
 * since the load before holds the stripe, or was counted. */
static int is_same_load(const volatile void *at, uint64_t size, uintptr_t place) {
    struct thread *thread = self;
    if (!thread || !recording || options.keeps_all) return 0;
    uint64_t what = number_of_same(thread, LOAD, (uintptr_t)at, size, place);
    const struct load *kept = &thread->loads[what >> 56];
    if (kept->what != what || kept->others != thread->others) return 0;
    struct stripe *stripe = stripe_of((uintptr_t)at);
    return !__atomic_load_n(&stripe->is_locked, __ATOMIC_SEQ_CST) &&
           __atomic_load_n(&stripe->changes, __ATOMIC_SEQ_CST) == kept->changes;
}

static void leave(struct stripe *stripe, enum kind kind, const volatile void *at, uint64_t bytes, int order,
                  uintptr_t place, int is_same) {
    if (!stripe) return;
    uint64_t size = size_with(bytes, order);
    renew((uintptr_t)at, bytes);
    int publishes = kind != LOAD && (order >= __ATOMIC_RELEASE || self->has_fence);
    if (is_same && !publishes && !options.keeps_all) {
        record_same(stripe, kind, (uintptr_t)at, size, place);
    } else {
        stripe->changes++;
        record_sync(kind, (uintptr_t)at, size, place);
    }
    unlock_stripe(stripe);
    is_in_step = 0;
}

#define exchanged(at, wanted, value)                                                                         \
    __atomic_compare_exchange_n(at, wanted, value, 0, __ATOMIC_SEQ_CST, __ATOMIC_SEQ_CST)
#define LOADED(type, bits)                                                                                   \
    type __tsan_atomic##bits##_load(const volatile type *at, int order) {                                    \
        type value = __atomic_load_n(at, __ATOMIC_SEQ_CST);                                                  \
        if (is_same_load(at, size_with(sizeof value, order), PLACE)) return value;                           \
        struct stripe *stripe = enter(at);                                                                   \
        value = __atomic_load_n(at, __ATOMIC_SEQ_CST);                                                       \
        leave(stripe, LOAD, at, sizeof value, order, PLACE, 1);                                              \
        return value;                                                                                        \
    }
#define STORED(type, bits)                                                                                   \
    void __tsan_atomic##bits##_store(volatile type *at, type value, int order) {                             \
        struct stripe *stripe = enter(at);                                                                   \
        __atomic_store_n(at, value, __ATOMIC_SEQ_CST);                                                       \
        leave(stripe, STORE, at, sizeof value, order, PLACE, 0);                                             \
    }
#define CHANGED(type, bits, name, operation)                                                                 \
    type __tsan_atomic##bits##_##name(volatile type *at, type value, int order) {                            \
        struct stripe *stripe = enter(at);                                                                   \
        type was = operation(at, value, __ATOMIC_SEQ_CST);                                                   \
        leave(stripe, UPDATE, at, sizeof value, order, PLACE, was == *at);                                   \
        return was;                                                                                          \
    }
#define COMPARED(type, bits, name)                                                                           \
    int __tsan_atomic##bits##_##name(volatile type *at, type *wanted, type value, int order, int failure) {  \
        struct stripe *stripe = enter(at);                                                                   \
        int is_done = exchanged(at, wanted, value);                                                          \
        leave(stripe, is_done ? UPDATE : LOAD, at, sizeof value, is_done ? order : failure, PLACE,           \
              !is_done);                                                                                     \
        return is_done;                                                                                      \
    }
#define COMPARED_VALUE(type, bits)                                                                           \
    type __tsan_atomic##bits##_compare_exchange_val(volatile type *at, type wanted, type value, int order,   \
                                                    int failure) {                                           \
        struct stripe *stripe = enter(at);                                                                   \
        int is_done = exchanged(at, &wanted, value);                                                         \
        leave(stripe, is_done ? UPDATE : LOAD, at, sizeof value, is_done ? order : failure, PLACE,           \
              !is_done);                                                                                     \
        return wanted;                                                                                       \
    }
#define ATOMIC(type, bits)                                                                                   \
    LOADED(type, bits)                                                                                       \
    STORED(type, bits)                                                                                       \
    CHANGED(type, bits, exchange, __atomic_exchange_n)                                                       \
    CHANGED(type, bits, fetch_add, __atomic_fetch_add)                                                       \
    CHANGED(type, bits, fetch_sub, __atomic_fetch_sub)                                                       \
    CHANGED(type, bits, fetch_and, __atomic_fetch_and)                                                       \
    CHANGED(type, bits, fetch_or, __atomic_fetch_or)                                                         \
    CHANGED(type, bits, fetch_xor, __atomic_fetch_xor)                                                       \
    CHANGED(type, bits, fetch_nand, __atomic_fetch_nand)                                                     \
    COMPARED(type, bits, compare_exchange_strong)                                                            \
    COMPARED(type, bits, compare_exchange_weak)                                                              \
    COMPARED_VALUE(type, bits)
ATOMIC(uint8_t, 8)
ATOMIC(uint16_t, 16)
ATOMIC(uint32_t, 32)
ATOMIC(uint64_t, 64)

void __tsan_atomic_thread_fence(int order) {
    __atomic_thread_fence(__ATOMIC_SEQ_CST);
    if (self && order >= __ATOMIC_RELEASE) self->has_fence = 1;
    record_sync(FENCE, 0, (uint64_t)(order & 7) * ORDERS, PLACE);
}
void __tsan_atomic_signal_fence(int order) {
    (void)order;
    __asm__ volatile("" : : : "memory");
}

/* Sixteen bytes: by the one instruction that there is for them. */
__extension__ typedef unsigned __int128 sixteen;
#define SIXTEEN __attribute__((target("cx16")))
SIXTEEN static sixteen swap(volatile sixteen *at, sixteen from, sixteen to) {
    return __sync_val_compare_and_swap(at, from, to);
}

SIXTEEN sixteen __tsan_atomic128_load(const volatile sixteen *at, int order) {
    struct stripe *stripe = enter(at);
    sixteen value = swap((volatile sixteen *)(uintptr_t)at, 0, 0);
    leave(stripe, LOAD, at, sizeof value, order, PLACE, 1);
    return value;
}
#define CHANGED_SIXTEEN(type, name, kind, after, result)                                                     \
    SIXTEEN type __tsan_atomic128_##name(volatile sixteen *at, sixteen value, int order) {                   \
        struct stripe *stripe = enter(at);                                                                   \
        sixteen was = *at;                                                                                   \
        for (sixteen seen = swap(at, was, after); seen != was; seen = swap(at, was, after)) was = seen;      \
        leave(stripe, kind, at, sizeof value, order, PLACE, kind == UPDATE && was == *at);                   \
        return result;                                                                                       \
    }
CHANGED_SIXTEEN(void, store, STORE, value, (void)0)
CHANGED_SIXTEEN(sixteen, exchange, UPDATE, value, was)
CHANGED_SIXTEEN(sixteen, fetch_add, UPDATE, was + value, was)
CHANGED_SIXTEEN(sixteen, fetch_sub, UPDATE, was - value, was)
CHANGED_SIXTEEN(sixteen, fetch_and, UPDATE, was & value, was)
CHANGED_SIXTEEN(sixteen, fetch_or, UPDATE, was | value, was)
CHANGED_SIXTEEN(sixteen, fetch_xor, UPDATE, was ^ value, was)
CHANGED_SIXTEEN(sixteen, fetch_nand, UPDATE, ~(was & value), was)

sixteen __tsan_atomic128_compare_exchange_val(volatile sixteen *at, sixteen wanted, sixteen value, int order,
                                              int failure) {
    struct stripe *stripe = enter(at);
    sixteen was = swap(at, wanted, value);
    leave(stripe, was == wanted ? UPDATE : LOAD, at, sizeof value, was == wanted ? order : failure, PLACE,
          was != wanted);
    return was;
}
#define COMPARED_SIXTEEN(name)                                                                               \
    int __tsan_atomic128_##name(volatile sixteen *at, sixteen *wanted, sixteen value, int order,             \
                                int failure) {                                                               \
        struct stripe *stripe = enter(at);                                                                   \
        sixteen was = swap(at, *wanted, value);                                                              \
        int is_done = was == *wanted;                                                                        \
        leave(stripe, is_done ? UPDATE : LOAD, at, sizeof value, is_done ? order : failure, PLACE,           \
              !is_done);                                                                                     \
        *wanted = was;                                                                                       \
        return is_done;                                                                                      \
    }
COMPARED_SIXTEEN(compare_exchange_strong)
COMPARED_SIXTEEN(compare_exchange_weak)
