/* Races: none
 * Locks made of atomic operations: by a flag, and by a compare-and-exchange of 8 bytes. */
#include <pthread.h>
#include <sched.h>
#include <stdatomic.h>
#include <stdint.h>
#include <stdio.h>

static atomic_flag flag = ATOMIC_FLAG_INIT;
static _Atomic uint64_t word;
static int first, second;

static void *work(void *unused)
{
    for (int i = 0; i < 50; i++) {
        while (atomic_flag_test_and_set_explicit(&flag, memory_order_acquire))
            sched_yield();
        first++;
        atomic_flag_clear_explicit(&flag, memory_order_release);
        uint64_t free = 0;
        while (!atomic_compare_exchange_weak(&word, &free, 1)) {
            free = 0;
            sched_yield();
        }
        second++;
        atomic_store(&word, 0);
    }
    return unused;
}

int main(void)
{
    pthread_t thread;
    pthread_create(&thread, NULL, work, NULL);
    work(NULL);
    pthread_join(thread, NULL);
    printf("%d %d\n", first, second);
    return first == 100 && second == 100 ? 0 : 1;
}
