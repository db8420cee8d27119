/* Races: racy
 * A program that gives up its rights before it starts its thread. */
#include <pthread.h>
#include <stdio.h>
#include <unistd.h>

static volatile int racy;

static void *work(void *unused)
{
    racy++;
    return unused;
}

int main(void)
{
    pthread_t thread;
    if (geteuid() == 0 && setuid(65534) != 0)
        return 1;
    pthread_create(&thread, NULL, work, NULL);
    racy++;
    pthread_join(thread, NULL);
    printf("%d\n", racy);
    return 0;
}
