/* Time, by which the events of all threads are put in one order. It is the processor's time stamp, which
 * costs no shared memory; where the processor has no invariant one, a counter. Time stamps of two processors
 * may differ, so what orders two threads carries the time as well: each lock, block or atomic variable has a
 * stripe with the latest time of an event on it, and the next event on it is later: a hybrid logical
 * clock. */
#include <cpuid.h>
#include <sched.h>
#include <x86intrin.h>
#include "recorder.h"

enum { STRIPES = 1 << 12 };
static struct stripe stripes[STRIPES] __attribute__((aligned(64)));
volatile uint64_t clock_counter __attribute__((aligned(64)));
uint64_t clock_start;
int has_stamp;

void start_clock(void) {
    unsigned a, b, c, d;
    has_stamp = __get_cpuid(0x80000007, &a, &b, &c, &d) && d & 1 << 8;
    clock_start = has_stamp ? __rdtsc() - 1 : 0;
}

/* In the child of a fork: who held a stripe's lock is not there. */
void again_clock(void) {
    for (int i = 0; i < STRIPES; i++) stripes[i].is_locked = 0;
}

struct stripe *stripe_of(uintptr_t address) {
    uint64_t mixed = (uint64_t)(address >> 3) * 0x9e3779b97f4a7c15;
    return &stripes[mixed >> 52];
}

void lock_stripe(struct stripe *stripe) {
    int tries = 0;
    while (__atomic_exchange_n(&stripe->is_locked, 1, __ATOMIC_ACQUIRE)) {
        while (__atomic_load_n(&stripe->is_locked, __ATOMIC_RELAXED)) {
            _mm_pause();
            if (++tries % 64 == 0) sched_yield();
        }
    }
}

void unlock_stripe(struct stripe *stripe) {
    __atomic_store_n(&stripe->is_locked, 0, __ATOMIC_RELEASE);
}

void raise_time(struct stripe *stripe, uint64_t time) {
    uint64_t before = __atomic_load_n(&stripe->time, __ATOMIC_SEQ_CST);
    while (before < time) {
        if (__atomic_compare_exchange_n(&stripe->time, &before, time, 0, __ATOMIC_SEQ_CST, __ATOMIC_SEQ_CST))
            break;
    }
}
