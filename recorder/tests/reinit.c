/* Races: none
 * Mutexes that are initialised or destroyed while they are held, and one whose memory a new one takes. */
#include <pthread.h>
#include <stdio.h>

static pthread_mutex_t shared;
static int counter;

static void *keep(void *unused)
{
    pthread_mutex_t own;
    pthread_mutex_init(&own, NULL);
    pthread_mutex_lock(&own);
    counter++;
    return unused;
}

static void destroy_held(void)
{
    pthread_mutex_t own;
    pthread_mutex_init(&own, NULL);
    pthread_mutex_lock(&own);
    counter++;
    pthread_mutex_destroy(&own);
}

static void *use_shared(void *unused)
{
    pthread_mutex_lock(&shared);
    counter++;
    pthread_mutex_unlock(&shared);
    return unused;
}

int main(void)
{
    pthread_t thread;
    destroy_held();
    destroy_held();
    pthread_mutex_init(&shared, NULL);
    pthread_mutex_lock(&shared);
    pthread_mutex_init(&shared, NULL);
    pthread_create(&thread, NULL, use_shared, NULL);
    pthread_join(thread, NULL);
    for (int i = 0; i < 2; i++) {
        pthread_create(&thread, NULL, keep, NULL);
        pthread_join(thread, NULL);
    }
    printf("%d\n", counter);
    return 0;
}
