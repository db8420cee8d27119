/* Races: none
 * Atomic operations of each width and kind give what they have to. */
#include <pthread.h>
#include <stdint.h>
#include <stdio.h>

static uint8_t byte;
static uint16_t half;
static uint32_t word;
static uint64_t wide;

static void *work(void *unused)
{
    for (int i = 0; i < 100; i++) {
        __atomic_fetch_add(&byte, 1, __ATOMIC_SEQ_CST);
        __atomic_sub_fetch(&half, 1, __ATOMIC_ACQ_REL);
        __atomic_fetch_xor(&word, 1, __ATOMIC_RELAXED);
        __atomic_fetch_or(&wide, 1ull << (i % 50), __ATOMIC_RELEASE);
        __atomic_fetch_and(&wide, ~(1ull << 60), __ATOMIC_ACQUIRE);
        __atomic_fetch_nand(&word, 0, __ATOMIC_SEQ_CST);
    }
    return unused;
}

int main(void)
{
    pthread_t thread;
    pthread_create(&thread, NULL, work, NULL);
    work(NULL);
    pthread_join(thread, NULL);
    uint64_t was = __atomic_exchange_n(&wide, 3, __ATOMIC_SEQ_CST), wanted = 3;
    int is_set = __atomic_compare_exchange_n(&wide, &wanted, 4, 0, __ATOMIC_SEQ_CST, __ATOMIC_SEQ_CST);
    int is_kept = !__atomic_compare_exchange_n(&wide, &wanted, 5, 0, __ATOMIC_SEQ_CST, __ATOMIC_SEQ_CST);
    printf("%d %d %llx\n", byte, half, (unsigned long long)was);
    return byte == 200 && half == 65336 && was == (1ull << 50) - 1 && is_set && is_kept && wide == 4 ? 0 : 1;
}
