/* Races: stack
 * A thread stores into a variable on the stack of main, and main into it too. */
#include <pthread.h>

static void *work(void *shared)
{
    *(volatile int *)shared = 1;
    return NULL;
}

int main(void)
{
    pthread_t thread;
    volatile int shared = 0;
    pthread_create(&thread, NULL, work, (void *)&shared);
    shared = 2;
    pthread_join(thread, NULL);
    return 0;
}
