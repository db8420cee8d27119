/* Numbers of stacks. A stack is its caller's stack with one call more, so all stacks are a tree. Threads add
 * to it without a lock. */
#include "recorder.h"

enum { STACKS = 1 << 26, CHAINS = 1 << 18 };
struct stack *stacks;
static volatile uint32_t count = 1;
static volatile uint32_t *chains;

void start_stacks(void) {
    stacks = pages(sizeof *stacks * STACKS);
    chains = pages(sizeof *chains * CHAINS);
    if (!stacks || !chains) options.has_stacks = 0;
}

uint32_t stack_count(void) {
    uint32_t all = count;
    return all < STACKS ? all : STACKS;
}

static uint32_t child_of(uint32_t parent, uint64_t place) {
    uint64_t mixed = (place ^ (uint64_t)parent << 32 ^ parent) * 0x9e3779b97f4a7c15;
    volatile uint32_t *chain = &chains[mixed >> 46];
    uint32_t first = __atomic_load_n(chain, __ATOMIC_ACQUIRE);
    uint32_t checked = 0;
    uint32_t made = 0;
    for (;;) {
        for (uint32_t number = first; number != checked; number = stacks[number].next) {
            if (stacks[number].parent == parent && stacks[number].place == place) return number;
        }
        if (!made) made = __atomic_fetch_add(&count, 1, __ATOMIC_SEQ_CST);
        if (made >= STACKS) return parent;
        stacks[made].parent = parent;
        stacks[made].place = place;
        stacks[made].next = first;
        checked = first;
        if (__atomic_compare_exchange_n(chain, &first, made, 0, __ATOMIC_SEQ_CST, __ATOMIC_ACQUIRE))
            return made;
    }
}

/* The number of the thread's stack, found from the innermost call whose number is known. */
uint32_t find_stack(struct thread *thread) {
    uint32_t known = thread->depth;
    while (known > 0 && !thread->frames[known - 1].stack) known--;
    uint32_t stack = known ? thread->frames[known - 1].stack : 0;
    for (; known < thread->depth; known++) {
        stack = child_of(stack, thread->frames[known].caller);
        thread->frames[known].stack = stack;
    }
    return stack;
}
