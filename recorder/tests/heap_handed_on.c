/* Races: none
 * Blocks that one thread makes, others use with a lock, and the last frees, by each way to make a block. */
#define _GNU_SOURCE
#include <malloc.h>
#include <pthread.h>
#include <stdlib.h>
#include <string.h>

enum { WAYS = 8 };
static pthread_mutex_t mutex = PTHREAD_MUTEX_INITIALIZER;
static int *blocks[WAYS], users[WAYS];

static int *make(int way)
{
    void *block = NULL;
    switch (way) {
    case 0: return malloc(64);
    case 1: return calloc(4, 16);
    case 2: return realloc(malloc(8), 64);
    case 3: return reallocarray(NULL, 4, 16);
    case 4: return aligned_alloc(64, 64);
    case 5: return memalign(64, 64);
    case 6: return posix_memalign(&block, 64, 64) == 0 ? block : NULL;
    default: return (int *)strndup("some words of a text", 64);
    }
}

static void *work(void *unused)
{
    for (int round = 0; round < 20; round++)
        for (int way = 0; way < WAYS; way++) {
            pthread_mutex_lock(&mutex);
            if (users[way]++ % 4 == 0)
                blocks[way] = make(way);
            blocks[way][1]++;
            if (users[way] % 4 == 0)
                free(blocks[way]);
            pthread_mutex_unlock(&mutex);
        }
    return unused;
}

int main(void)
{
    pthread_t threads[2];
    for (int i = 0; i < 2; i++)
        pthread_create(&threads[i], NULL, work, NULL);
    for (int i = 0; i < 2; i++)
        pthread_join(threads[i], NULL);
    return 0;
}
