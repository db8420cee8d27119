/* Races: racy
 * Status: -11
 * A process that ends by a fault. */
#include <pthread.h>


static volatile int racy;
static int *volatile nowhere;

static void *work(void *unused)
{
    racy++;
    return unused;
}

int main(void)
{
    pthread_t thread;
    pthread_create(&thread, NULL, work, NULL);
    racy++;
    pthread_join(thread, NULL);
    *nowhere = 1;
    return 1;
}
