/* Races: racy
 * Status: 4
 * A process that ends by _exit in its handler of a signal. */
#include <pthread.h>
#include <signal.h>
#include <unistd.h>

static volatile int racy;

static void *work(void *unused)
{
    racy++;
    return unused;
}

static void end(int number)
{
    _exit(number == SIGTERM ? 4 : 5);
}

int main(void)
{
    pthread_t thread;
    signal(SIGTERM, end);
    pthread_create(&thread, NULL, work, NULL);
    racy++;
    pthread_join(thread, NULL);
    raise(SIGTERM);
    return 1;
}
