/* Races: racy
 * Status: 0
 * Main ends by pthread_exit, which ends the process with its last thread. */
#include <pthread.h>


static volatile int racy;

static void *work(void *unused)
{
    racy++;
    return unused;
}

int main(void)
{
    pthread_t thread;
    pthread_create(&thread, NULL, work, NULL);
    racy++;
    pthread_join(thread, NULL);
    pthread_exit(NULL);
}
