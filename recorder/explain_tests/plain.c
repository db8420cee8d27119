/* A race by happens-before, three calls deep, while each thread holds a lock of its own. */
#include "turns.h"

static pthread_mutex_t of_first = PTHREAD_MUTEX_INITIALIZER, of_second = PTHREAD_MUTEX_INITIALIZER;
long table[8];

__attribute__((noinline)) static void add(long number)
{
    table[3] = number;
}

__attribute__((noinline)) static void work(pthread_mutex_t *own, long number)
{
    pthread_mutex_lock(own);
    add(number);
    pthread_mutex_unlock(own);
}

static void *first(void *unused)
{
    work(&of_first, 1);
    pass(1);
    return unused;
}

static void *second(void *unused)
{
    await(1);
    work(&of_second, 2);
    return unused;
}

int main(void)
{
    pthread_t one, other;
    pthread_create(&one, NULL, first, NULL);
    pthread_create(&other, NULL, second, NULL);
    pthread_join(one, NULL);
    pthread_join(other, NULL);
    return table[3] != 2;
}
