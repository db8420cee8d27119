/* Races: none
 * A thread that is cancelled in the wait on a condition variable takes its mutex back, and its clean-up
 * handler unlocks it. */
#include "../explain_tests/turns.h"
#include <stdio.h>

static pthread_mutex_t mutex = PTHREAD_MUTEX_INITIALIZER;
static pthread_cond_t condition = PTHREAD_COND_INITIALIZER;
static int ready;

static void undo(void *lock)
{
    ready++;
    pthread_mutex_unlock(lock);
}

static void *work(void *unused)
{
    pthread_mutex_lock(&mutex);
    pthread_cleanup_push(undo, &mutex);
    ready = 1;
    pass(1);
    for (;;)
        pthread_cond_wait(&condition, &mutex);
    pthread_cleanup_pop(1);
    return unused;
}

int main(void)
{
    pthread_t thread;
    pthread_create(&thread, NULL, work, NULL);
    await(1);
    pthread_mutex_lock(&mutex); /* which is free once the thread waits */
    ready++;
    pthread_mutex_unlock(&mutex);
    pthread_cancel(thread);
    pthread_join(thread, NULL);
    pthread_mutex_lock(&mutex);
    printf("%d\n", ready);
    pthread_mutex_unlock(&mutex);
    return 0;
}
