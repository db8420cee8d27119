/* Races: racy
 * 900 threads, one after the other, and then two that race. */
#include <pthread.h>
#include <stdio.h>

static pthread_mutex_t mutex = PTHREAD_MUTEX_INITIALIZER;
static int counter, racy;

static void *work(void *unused)
{
    pthread_mutex_lock(&mutex);
    counter++;
    pthread_mutex_unlock(&mutex);
    return unused;
}

static void *race(void *unused)
{
    racy++;
    return unused;
}

int main(void)
{
    pthread_t first, second;
    for (int i = 0; i < 900; i++) {
        pthread_create(&first, NULL, work, NULL);
        pthread_join(first, NULL);
    }
    pthread_create(&first, NULL, race, NULL);
    pthread_create(&second, NULL, race, NULL);
    pthread_join(first, NULL);
    pthread_join(second, NULL);
    printf("%d %d\n", counter, racy);
    return 0;
}
