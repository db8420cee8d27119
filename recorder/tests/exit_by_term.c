/* Races: racy
 * Status: -15
 * A process that ends by a signal which it does not handle. */
#include <pthread.h>
#include <signal.h>

static volatile int racy;

static void *work(void *unused)
{
    racy++;
    return unused;
}

int main(void)
{
    pthread_t thread;
    pthread_create(&thread, NULL, work, NULL);
    racy++;
    pthread_join(thread, NULL);
    raise(SIGTERM);
    return 1;
}
