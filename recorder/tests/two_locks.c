/* Races: racy
 * Each thread takes a lock, but not the same one. */
#include <pthread.h>
#include <stdio.h>

static pthread_mutex_t mutexes[2] = { PTHREAD_MUTEX_INITIALIZER, PTHREAD_MUTEX_INITIALIZER };
static int racy;

static void *work(void *mutex)
{
    pthread_mutex_lock(mutex);
    racy++;
    pthread_mutex_unlock(mutex);
    return NULL;
}

int main(void)
{
    pthread_t thread;
    pthread_create(&thread, NULL, work, &mutexes[0]);
    work(&mutexes[1]);
    pthread_join(thread, NULL);
    printf("%d\n", racy);
    return 0;
}
