/* Races: racy
 * Status: 5
 * A process that goes on as another program. */
#include <pthread.h>
#include <unistd.h>

static volatile int racy;

static void *work(void *unused)
{
    racy++;
    return unused;
}

int main(void)
{
    pthread_t thread;
    pthread_create(&thread, NULL, work, NULL);
    racy++;
    pthread_join(thread, NULL);
    execl("/bin/sh", "sh", "-c", "exit 5", (char *)NULL);
    return 1;
}
