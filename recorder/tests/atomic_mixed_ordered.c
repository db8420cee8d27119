/* Races: none
 * Plain accesses before the threads start and after they end, or by a lock, beside atomic ones between. */
#include <pthread.h>
#include <stdatomic.h>
#include <stdio.h>

static pthread_mutex_t mutex = PTHREAD_MUTEX_INITIALIZER;
static int counter, guarded;

static void *work(void *unused)
{
    for (int i = 0; i < 10; i++)
        __atomic_fetch_add(&counter, 1, __ATOMIC_RELAXED);
    pthread_mutex_lock(&mutex);
    __atomic_store_n(&guarded, guarded + 1, __ATOMIC_RELAXED);
    pthread_mutex_unlock(&mutex);
    return unused;
}

int main(void)
{
    pthread_t threads[2];
    counter = 5;
    for (int i = 0; i < 2; i++)
        pthread_create(&threads[i], NULL, work, NULL);
    for (int i = 0; i < 2; i++)
        pthread_join(threads[i], NULL);
    printf("%d %d\n", counter, guarded);
    return counter == 25 && guarded == 2 ? 0 : 1;
}
