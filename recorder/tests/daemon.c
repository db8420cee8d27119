/* Races: racy
 * Processes: 1
 * A daemon: the process that was started ends at once, and its child goes on. */
#include <pthread.h>
#include <unistd.h>

static volatile int racy;

static void *work(void *unused)
{
    racy++;
    return unused;
}

int main(void)
{
    pthread_t thread;
    if (daemon(0, 0) != 0)
        return 1;
    pthread_create(&thread, NULL, work, NULL);
    racy++;
    pthread_join(thread, NULL);
    return 0;
}
