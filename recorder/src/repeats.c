/* Repeated accesses, which are left out. An access repeats the latest one of its bytes, by whichever thread,
 * where that was by this thread, of these bytes, at this place with this stack, and the thread holds no lock
 * and had only accesses since. By WCP_LESS=1 it repeats any such access of this thread since its last event
 * that is no access, whatever was accessed in between.
 *
 * The latest access of each eight bytes is kept as a number. Bytes that lie far apart have one place for it,
 * so a repeat may be kept. */
#include <sys/mman.h>
#include "access.h"

uint64_t latest_accesses[LATEST] __attribute__((aligned(4096)));
volatile uint64_t renewals;

/* The bytes are accessed in another way, or are other memory from now on. Where they are many, no next access
 * of any bytes is a repeat. */
void renew(uintptr_t address, uint64_t size) {
    static const uint64_t many = 4096, no_access = 2;
    if (size > many) __atomic_fetch_add(&renewals, 1, __ATOMIC_SEQ_CST);
    else if (size > 0) is_latest(address, size, no_access);
}

/* What an event adds to the sum of the locks that its thread holds. The sum is 0 where the thread gave back
 * those that it took, and no other. */
uint64_t change_of_held(enum kind kind, uint64_t lock) {
    uint64_t number = lock * 0x9e3779b97f4a7c15;
    if (kind == ACQUIRE || kind == READ_LOCK || kind == WRITE_LOCK) return number;
    if (kind == RELEASE || kind == READ_WRITE_UNLOCK) return -number;
    return 0;
}

/* In the child of a fork threads are numbered anew. */
void again_repeats(void) {
    madvise(latest_accesses, sizeof latest_accesses, MADV_DONTNEED);
}
