/* Races: none
 * Threads one after another, and side by side, on the same memory for their stacks; each joins the last. */
#include <pthread.h>
#include <stdio.h>

static int counter;

static void *work(void *unused)
{
    volatile int own[100];
    for (int i = 0; i < 100; i++)
        own[i] = i;
    return own[99] == 99 ? unused : NULL;
}

static void *chain(void *left)
{
    pthread_t thread;
    int fewer = *(int *)left - 1;
    work(NULL);
    counter++;
    if (fewer > 0) {
        pthread_create(&thread, NULL, chain, &fewer);
        pthread_join(thread, NULL);
    }
    return NULL;
}

int main(void)
{
    pthread_t threads[3];
    int left = 6;
    for (int round = 0; round < 5; round++) {
        for (int i = 0; i < 3; i++)
            pthread_create(&threads[i], NULL, work, NULL);
        for (int i = 0; i < 3; i++)
            pthread_join(threads[i], NULL);
    }
    chain(&left);
    printf("%d\n", counter);
    return 0;
}
