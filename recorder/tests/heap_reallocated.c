/* Races: heap
 * A block is used by one thread, and another makes it longer, which moves it. */
#include "../explain_tests/turns.h"
#include <stdlib.h>

static void *work(void *block)
{
    *(volatile int *)block = 2;
    pass(1);
    return NULL;
}

int main(void)
{
    pthread_t thread;
    int *volatile block = malloc(sizeof *block);
    pthread_create(&thread, NULL, work, block);
    await(1);
    block = realloc(block, 1 << 20);
    pthread_join(thread, NULL);
    free(block);
    return 0;
}
