/* A race that the schedule hides: both threads work with a lock between their accesses. */
#include "turns.h"

static pthread_mutex_t guard = PTHREAD_MUTEX_INITIALIZER;
int announced, sold, asked;

__attribute__((noinline)) static void sell(void)
{
    pthread_mutex_lock(&guard);
    sold += 3;
    pthread_mutex_unlock(&guard);
}

static void *write_orders(void *unused)
{
    pthread_setname_np(pthread_self(), "writer");
    announced = 3;
    sell();
    pass(1);
    return unused;
}

static void *read_orders(void *unused)
{
    pthread_setname_np(pthread_self(), "reader");
    await(1);
    pthread_mutex_lock(&guard);
    asked += 1;
    pthread_mutex_unlock(&guard);
    asked += announced;
    return unused;
}

int main(void)
{
    pthread_t writer, reader;
    pthread_create(&writer, NULL, write_orders, NULL);
    pthread_create(&reader, NULL, read_orders, NULL);
    pthread_join(writer, NULL);
    pthread_join(reader, NULL);
    return sold + asked + announced != 10;
}
