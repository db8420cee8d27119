/* Races: racy
 * A program that leaves its folder and closes all descriptors that it does not know, as daemons do. */
#include <pthread.h>
#include <unistd.h>

static volatile int racy;

static void *work(void *unused)
{
    racy++;
    return unused;
}

int main(void)
{
    pthread_t thread;
    if (chdir("/") != 0)
        return 1;
    for (int descriptor = 3; descriptor < 1024; descriptor++)
        close(descriptor);
    pthread_create(&thread, NULL, work, NULL);
    racy++;
    pthread_join(thread, NULL);
    return 0;
}
