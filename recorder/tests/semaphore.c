/* Races: none
 * Two semaphores hand a cell to and fro; waits by tries and within a time. */
#include <errno.h>
#include <pthread.h>
#include <sched.h>
#include <semaphore.h>
#include <stdio.h>
#include <time.h>

static sem_t is_full, is_empty;
static int cell, sum;

static void *take(void *unused)
{
    struct timespec until;
    clock_gettime(CLOCK_REALTIME, &until);
    until.tv_sec += 3600;
    for (int i = 0; i < 10; i++) {
        if (sem_timedwait(&is_full, &until) != 0)
            return NULL;
        sum += cell;
        sem_post(&is_empty);
    }
    return unused;
}

int main(void)
{
    pthread_t thread;
    sem_init(&is_full, 0, 0);
    sem_init(&is_empty, 0, 1);
    pthread_create(&thread, NULL, take, NULL);
    for (int i = 0; i < 10; i++) {
        while (sem_trywait(&is_empty) != 0 && errno == EAGAIN)
            sched_yield();
        cell = i;
        sem_post(&is_full);
    }
    pthread_join(thread, NULL);
    printf("%d\n", sum);
    return sum == 45 ? 0 : 1;
}
