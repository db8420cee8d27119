/* Races: none
 * A barrier parts what each thread stores from what its neighbour loads, twice. */
#include <pthread.h>
#include <stdio.h>

#define THREADS 3
static pthread_barrier_t barrier;
static int stored[THREADS], sums[THREADS];

static void *work(void *number)
{
    int own = *(int *)number;
    for (int round = 0; round < 2; round++) {
        stored[own] = round + own;
        pthread_barrier_wait(&barrier);
        sums[own] += stored[(own + 1) % THREADS];
        pthread_barrier_wait(&barrier);
    }
    return NULL;
}

int main(void)
{
    pthread_t threads[THREADS];
    int numbers[THREADS];
    pthread_barrier_init(&barrier, NULL, THREADS);
    for (int i = 0; i < THREADS; i++) {
        numbers[i] = i;
        pthread_create(&threads[i], NULL, work, &numbers[i]);
    }
    for (int i = 0; i < THREADS; i++)
        pthread_join(threads[i], NULL);
    printf("%d %d %d\n", sums[0], sums[1], sums[2]);
    return 0;
}
