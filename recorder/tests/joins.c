/* Races: none
 * Main loads what each thread stored once it has joined it, by tries, within a time, by a clock. */
#define _GNU_SOURCE
#include <pthread.h>
#include <sched.h>
#include <stdio.h>
#include <time.h>

static int stored[3];

static void *work(void *own)
{
    *(int *)own += 1;
    return NULL;
}

int main(void)
{
    pthread_t threads[3];
    struct timespec until;
    for (int i = 0; i < 3; i++)
        pthread_create(&threads[i], NULL, work, &stored[i]);
    clock_gettime(CLOCK_REALTIME, &until);
    until.tv_sec += 3600;
    while (pthread_tryjoin_np(threads[0], NULL) != 0)
        sched_yield();
    if (pthread_timedjoin_np(threads[1], NULL, &until) != 0)
        return 1;
    if (pthread_clockjoin_np(threads[2], NULL, CLOCK_REALTIME, &until) != 0)
        return 1;
    printf("%d %d %d\n", stored[0], stored[1], stored[2]);
    return 0;
}
