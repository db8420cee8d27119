/* Races: early
 * Cut: threads
 * 1,100 threads are more than a trace may name: it is cut short, and says so. */
#include <pthread.h>
#include <stdio.h>

static pthread_mutex_t mutex = PTHREAD_MUTEX_INITIALIZER;
static int counter, racy, early;

static void *work(void *unused)
{
    pthread_mutex_lock(&mutex);
    counter++;
    pthread_mutex_unlock(&mutex);
    return unused;
}

static void *race_early(void *unused)
{
    early++;
    return unused;
}

static void *race(void *unused)
{
    racy++;
    return unused;
}

int main(void)
{
    pthread_t first, second;
    pthread_create(&first, NULL, race_early, NULL);
    pthread_create(&second, NULL, race_early, NULL);
    pthread_join(first, NULL);
    pthread_join(second, NULL);
    for (int i = 0; i < 1100; i++) {
        pthread_create(&first, NULL, work, NULL);
        pthread_join(first, NULL);
    }
    pthread_create(&first, NULL, race, NULL);
    pthread_create(&second, NULL, race, NULL);
    pthread_join(first, NULL);
    pthread_join(second, NULL);
    printf("%d %d %d\n", counter, racy, early);
    return 0;
}
