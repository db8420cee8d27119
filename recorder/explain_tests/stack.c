/* A race on a variable of main's stack. */
#include "turns.h"

static void *store(void *number)
{
    *(int *)number = 1;
    pass(1);
    return NULL;
}

int main(void)
{
    pthread_t thread;
    int number = 0;
    pthread_create(&thread, NULL, store, &number);
    await(1);
    number = 2;
    pthread_join(thread, NULL);
    return number > 2;
}
