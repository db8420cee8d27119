/* Races: heap
 * An allocator of the program's own knows other blocks, and not those of the library. */
#include <pthread.h>
#include <stdio.h>
#include <stdlib.h>

size_t malloc_usable_size(void *block)
{
    fprintf(stderr, "%p is no block of this allocator\n", block);
    abort();
}

static void *work(void *block)
{
    ((int *)block)[1]++;
    return block;
}

int main(void)
{
    pthread_t threads[2];
    int *block = calloc(4, sizeof *block);
    for (int i = 0; i < 2; i++)
        pthread_create(&threads[i], NULL, work, block);
    for (int i = 0; i < 2; i++)
        pthread_join(threads[i], NULL);
    printf("%d\n", block[1] > 0);
    free(block);
    return 0;
}
