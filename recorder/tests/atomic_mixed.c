/* Races: flag
 * A plain load beside an atomic store. */
#include <pthread.h>
#include <stdio.h>

static int flag;

static void *work(void *unused)
{
    __atomic_store_n(&flag, 1, __ATOMIC_RELEASE);
    return unused;
}

int main(void)
{
    pthread_t thread;
    pthread_create(&thread, NULL, work, NULL);
    int seen = flag;
    pthread_join(thread, NULL);
    printf("%d\n", seen);
    return 0;
}
