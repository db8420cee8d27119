/* Races: none
 * Detached threads, which nothing orders, take over each other's stacks. */
#include "../explain_tests/turns.h"

static void fill(volatile char *own)
{
    for (int i = 0; i < 200; i++)
        own[i] = 1;
}

static void *work(void *unused)
{
    volatile char own[200];
    fill(own);
    leave();
    return unused;
}

int main(void)
{
    for (int i = 0; i < 8; i++) {
        pthread_t thread;
        pthread_create(&thread, NULL, work, NULL);
        pthread_detach(thread);
        await_end();
    }
    return 0;
}
