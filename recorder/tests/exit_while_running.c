/* Races: racy
 * Status: 3
 * Main ends the process while other threads run, and wait for each other. */
#include <pthread.h>
#include <stdatomic.h>
#include <stdlib.h>

static pthread_mutex_t mutex = PTHREAD_MUTEX_INITIALIZER;
static volatile int racy;
static int counter;
static atomic_int started;

static void *work(void *unused)
{
    racy++;
    atomic_fetch_add_explicit(&started, 1, memory_order_relaxed);
    for (;;) {
        pthread_mutex_lock(&mutex);
        counter++;
        pthread_mutex_unlock(&mutex);
    }
    return unused;
}

int main(void)
{
    pthread_t threads[3];
    for (int i = 0; i < 3; i++)
        pthread_create(&threads[i], NULL, work, NULL);
    while (atomic_load_explicit(&started, memory_order_relaxed) < 3)
        continue;
    exit(3);
}
