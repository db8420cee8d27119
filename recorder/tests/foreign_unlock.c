/* Races: none
 * A thread unlocks the mutex that another locked: a signal to whoever waits for it. */
#include <pthread.h>
#include <stdio.h>

static pthread_mutex_t mutex = PTHREAD_MUTEX_INITIALIZER;
static int counter;

static void *work(void *unused)
{
    counter++;
    pthread_mutex_unlock(&mutex);
    return unused;
}

int main(void)
{
    pthread_t thread;
    pthread_mutex_lock(&mutex);
    pthread_create(&thread, NULL, work, NULL);
    pthread_mutex_lock(&mutex);
    printf("%d\n", counter);
    pthread_join(thread, NULL);
    return 0;
}
