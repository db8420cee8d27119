/* Races: racy
 * Status: -6
 * A process that ends by abort. */
#include <pthread.h>
#include <stdlib.h>

static volatile int racy;

static void *work(void *unused)
{
    racy++;
    return unused;
}

int main(void)
{
    pthread_t thread;
    pthread_create(&thread, NULL, work, NULL);
    racy++;
    pthread_join(thread, NULL);
    abort();
}
