/* Races: none
 * What is done once is seen by all that asked for it. */
#include <pthread.h>
#include <stdio.h>

static pthread_once_t control = PTHREAD_ONCE_INIT;
static int *table, sums[4];

static void make(void)
{
    static int made[4];
    for (int i = 0; i < 4; i++)
        made[i] = i;
    table = made;
}

static void *work(void *sum)
{
    pthread_once(&control, make);
    for (int i = 0; i < 4; i++)
        *(int *)sum += table[i];
    return NULL;
}

int main(void)
{
    pthread_t threads[4];
    for (int i = 0; i < 4; i++)
        pthread_create(&threads[i], NULL, work, &sums[i]);
    for (int i = 0; i < 4; i++)
        pthread_join(threads[i], NULL);
    printf("%d\n", sums[0]);
    return 0;
}
