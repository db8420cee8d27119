/* Races: none
 * Unlocks that fail release nothing. */
#define _GNU_SOURCE
#include <errno.h>
#include <pthread.h>
#include <stdio.h>

static pthread_mutex_t recursive = PTHREAD_RECURSIVE_MUTEX_INITIALIZER_NP;
static pthread_mutex_t checked = PTHREAD_ERRORCHECK_MUTEX_INITIALIZER_NP;
static int counter, failures;

static void *work(void *unused)
{
    counter++;
    failures += pthread_mutex_unlock(&recursive) == EPERM;
    failures += pthread_mutex_unlock(&checked) == EPERM;
    return unused;
}

int main(void)
{
    pthread_t thread;
    pthread_mutex_lock(&checked);
    failures += pthread_mutex_lock(&checked) == EDEADLK;
    pthread_create(&thread, NULL, work, NULL);
    pthread_join(thread, NULL);
    counter++;
    pthread_mutex_unlock(&checked);
    failures += pthread_mutex_unlock(&checked) == EPERM;
    printf("%d\n", failures);
    return failures == 4 ? 0 : 1;
}
