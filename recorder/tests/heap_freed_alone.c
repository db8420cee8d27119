/* Races: heap
 * A block is used by one thread, and freed by another: nothing else is shared. */
#include "../explain_tests/turns.h"
#include <stdlib.h>

static void *work(void *block)
{
    *(volatile int *)block = 2;
    pass(1);
    return NULL;
}

int main(void)
{
    pthread_t thread;
    int *block = malloc(sizeof *block);
    pthread_create(&thread, NULL, work, block);
    await(1);
    free(block);
    pthread_join(thread, NULL);
    return 0;
}
