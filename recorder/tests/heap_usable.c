/* Races: none
 * A block is used to the length that malloc_usable_size answers, and its memory is given out again. */
#include "../explain_tests/turns.h"
#include <malloc.h>
#include <stdio.h>
#include <stdlib.h>

static void *work(void *given)
{
    volatile char *block = given;
    block[17] = 1;
    free(given);
    leave();
    return NULL;
}

int main(void)
{
    pthread_t thread;
    char *block = malloc(24);
    volatile char *other = NULL;
    pthread_create(&thread, NULL, work, block);
    pthread_detach(thread);
    await_end();
    for (int i = 0; i < 20 && other != block; i++) {
        other = malloc(16);
        if (malloc_usable_size((void *)other) > 17)
            other[17] = 2;
    }
    printf("%d\n", other == block);
    return 0;
}
