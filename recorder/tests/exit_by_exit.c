/* Races: racy
 * Status: 3
 * A process that ends by exit. */
#include <pthread.h>
#include <stdlib.h>

static volatile int racy;

static void *work(void *unused)
{
    racy++;
    return unused;
}

int main(void)
{
    pthread_t thread;
    pthread_create(&thread, NULL, work, NULL);
    racy++;
    pthread_join(thread, NULL);
    exit(3);
}
