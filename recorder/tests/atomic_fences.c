/* Races: none
 * A release fence publishes by a later relaxed store; an acquire fence takes what relaxed loads saw. */
#include <pthread.h>
#include <stdatomic.h>
#include <stdio.h>

static int data;
static atomic_int ready;

static void *work(void *unused)
{
    while (!atomic_load_explicit(&ready, memory_order_relaxed))
        continue;
    atomic_thread_fence(memory_order_acquire);
    printf("%d\n", data);
    return unused;
}

int main(void)
{
    pthread_t thread;
    pthread_create(&thread, NULL, work, NULL);
    data = 7;
    atomic_thread_fence(memory_order_release);
    atomic_store_explicit(&ready, 1, memory_order_relaxed);
    pthread_join(thread, NULL);
    return 0;
}
