/* Races: data
 * A relaxed flag hands nothing on; two atomic operations never race. */
#include <pthread.h>
#include <stdatomic.h>
#include <stdio.h>

static atomic_int ready, counter;
static int data;

static void *work(void *unused)
{
    atomic_fetch_add_explicit(&counter, 1, memory_order_relaxed);
    while (!atomic_load_explicit(&ready, memory_order_relaxed))
        continue;
    printf("%d\n", data);
    return unused;
}

int main(void)
{
    pthread_t thread;
    pthread_create(&thread, NULL, work, NULL);
    atomic_fetch_add_explicit(&counter, 1, memory_order_relaxed);
    data = 7;
    atomic_store_explicit(&ready, 1, memory_order_relaxed);
    pthread_join(thread, NULL);
    return counter == 2 ? 0 : 1;
}
