/* Races: none
 * Threads that are cancelled in the wait for a semaphore, in a timed wait, in a join and in a read, each with
 * a clean-up handler. */
#include <pthread.h>
#include <semaphore.h>
#include <stdio.h>
#include <time.h>
#include <unistd.h>

static sem_t never;
static pthread_mutex_t mutex = PTHREAD_MUTEX_INITIALIZER;
static pthread_cond_t condition = PTHREAD_COND_INITIALIZER;
static int undone, ends[2];

static void undo(void *unused)
{
    (void)unused;
    pthread_mutex_lock(&mutex);
    undone++;
    pthread_mutex_unlock(&mutex);
}

static void undo_held(void *unused)
{
    (void)unused;
    undone++;
    pthread_mutex_unlock(&mutex);
}

static void *in_semaphore(void *unused)
{
    pthread_cleanup_push(undo, NULL);
    sem_wait(&never);
    pthread_cleanup_pop(0);
    return unused;
}

static void *in_timed_wait(void *unused)
{
    struct timespec until;
    clock_gettime(CLOCK_REALTIME, &until);
    until.tv_sec += 3600;
    pthread_mutex_lock(&mutex);
    pthread_cleanup_push(undo_held, NULL);
    for (;;)
        pthread_cond_timedwait(&condition, &mutex, &until);
    pthread_cleanup_pop(0);
    return unused;
}

static void *in_join(void *other)
{
    pthread_cleanup_push(undo, NULL);
    pthread_join(*(pthread_t *)other, NULL);
    pthread_cleanup_pop(0);
    return NULL;
}

static void *in_read(void *unused)
{
    char byte;
    pthread_cleanup_push(undo, NULL);
    if (read(ends[0], &byte, 1) < 0)
        undone = -1;
    pthread_cleanup_pop(0);
    return unused;
}

int main(void)
{
    pthread_t threads[4];
    sem_init(&never, 0, 0);
    if (pipe(ends) != 0)
        return 1;
    pthread_create(&threads[0], NULL, in_semaphore, NULL);
    pthread_create(&threads[1], NULL, in_timed_wait, NULL);
    pthread_create(&threads[2], NULL, in_join, &threads[0]);
    pthread_create(&threads[3], NULL, in_read, NULL);
    usleep(100000);
    for (int i = 3; i >= 0; i--) {
        pthread_cancel(threads[i]);
        pthread_join(threads[i], NULL);
    }
    printf("%d\n", undone);
    return undone == 4 ? 0 : 1;
}
