/* Races: none
 * Two locks whose sections overlap without nesting, hand over hand along a list. */
#include <pthread.h>
#include <stdio.h>

enum { LENGTH = 8 };
static struct {
    pthread_mutex_t mutex;
    int visits;
} list[LENGTH];

static void *walk(void *unused)
{
    pthread_mutex_lock(&list[0].mutex);
    for (int i = 0; i < LENGTH; i++) {
        list[i].visits++;
        if (i + 1 < LENGTH)
            pthread_mutex_lock(&list[i + 1].mutex);
        pthread_mutex_unlock(&list[i].mutex);
    }
    return unused;
}

int main(void)
{
    pthread_t threads[3];
    for (int i = 0; i < LENGTH; i++)
        pthread_mutex_init(&list[i].mutex, NULL);
    for (int i = 0; i < 3; i++)
        pthread_create(&threads[i], NULL, walk, NULL);
    for (int i = 0; i < 3; i++)
        pthread_join(threads[i], NULL);
    printf("%d\n", list[LENGTH - 1].visits);
    return 0;
}
