/* Races: none
 * A robust mutex whose holder ended is taken over with EOWNERDEAD. */
#define _GNU_SOURCE
#include <errno.h>
#include <pthread.h>
#include <stdio.h>

static pthread_mutex_t mutex;
static int counter;

static void *hold(void *unused)
{
    pthread_mutex_lock(&mutex);
    counter++;
    return unused;
}

static void *work(void *unused)
{
    for (int i = 0; i < 10; i++) {
        pthread_mutex_lock(&mutex);
        counter++;
        pthread_mutex_unlock(&mutex);
    }
    return unused;
}

int main(void)
{
    pthread_t holder, worker;
    pthread_mutexattr_t attributes;
    pthread_mutexattr_init(&attributes);
    pthread_mutexattr_setrobust(&attributes, PTHREAD_MUTEX_ROBUST);
    pthread_mutex_init(&mutex, &attributes);
    pthread_create(&holder, NULL, hold, NULL);
    pthread_join(holder, NULL);
    if (pthread_mutex_lock(&mutex) != EOWNERDEAD)
        return 1;
    counter++;
    pthread_mutex_consistent(&mutex);
    pthread_mutex_unlock(&mutex);
    pthread_create(&worker, NULL, work, NULL);
    work(NULL);
    pthread_join(worker, NULL);
    printf("%d\n", counter);
    return 0;
}
