/* Races: none
 * A recursive mutex, tries that fail, and locks within a time. */
#define _GNU_SOURCE
#include <pthread.h>
#include <sched.h>
#include <stdio.h>
#include <time.h>

static pthread_mutex_t recursive = PTHREAD_RECURSIVE_MUTEX_INITIALIZER_NP;
static pthread_mutex_t plain = PTHREAD_MUTEX_INITIALIZER;
static int first, second;

static void *work(void *unused)
{
    struct timespec until;
    clock_gettime(CLOCK_REALTIME, &until);
    until.tv_sec += 3600;
    for (int i = 0; i < 20; i++) {
        while (pthread_mutex_trylock(&recursive) != 0)
            sched_yield();
        pthread_mutex_lock(&recursive);
        first++;
        pthread_mutex_unlock(&recursive);
        first++;
        pthread_mutex_unlock(&recursive);
        if (pthread_mutex_timedlock(&plain, &until) != 0)
            return NULL;
        second++;
        pthread_mutex_unlock(&plain);
    }
    return unused;
}

int main(void)
{
    pthread_t thread;
    pthread_create(&thread, NULL, work, NULL);
    work(NULL);
    pthread_join(thread, NULL);
    printf("%d %d\n", first, second);
    return first == 80 && second == 40 ? 0 : 1;
}
