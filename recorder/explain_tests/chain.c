/* Two steps hide the race: a lock leads to a third thread, and another lock from there. */
#include "turns.h"

static pthread_mutex_t near = PTHREAD_MUTEX_INITIALIZER, far = PTHREAD_MUTEX_INITIALIZER;
int shared, one, two, three, four;

static void *first(void *unused)
{
    shared = 1;
    pthread_mutex_lock(&near);
    one = 1;
    pthread_mutex_unlock(&near);
    pass(1);
    return unused;
}

static void *between(void *unused)
{
    await(1);
    pthread_mutex_lock(&near);
    two = 1;
    pthread_mutex_unlock(&near);
    pthread_mutex_lock(&far);
    three = 1;
    pthread_mutex_unlock(&far);
    pass(2);
    return unused;
}

static void *last(void *unused)
{
    await(2);
    pthread_mutex_lock(&far);
    four = 1;
    pthread_mutex_unlock(&far);
    shared = 2;
    return unused;
}

int main(void)
{
    void *(*work[])(void *) = {first, between, last};
    pthread_t threads[3];
    for (int i = 0; i < 3; i++) pthread_create(&threads[i], NULL, work[i], NULL);
    for (int i = 0; i < 3; i++) pthread_join(threads[i], NULL);
    return one + two + three + four + shared != 6;
}
