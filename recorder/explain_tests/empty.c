/* The sections between the accesses are empty in the trace: what they do is not instrumented. */
#include "turns.h"

static pthread_mutex_t guard = PTHREAD_MUTEX_INITIALIZER;
int shared, unseen;

__attribute__((no_sanitize("thread"), noinline)) static void work_unseen(void)
{
    unseen++;
}

static void *first(void *unused)
{
    shared = 1;
    pthread_mutex_lock(&guard);
    work_unseen();
    pthread_mutex_unlock(&guard);
    pass(1);
    return unused;
}

static void *second(void *unused)
{
    await(1);
    pthread_mutex_lock(&guard);
    work_unseen();
    pthread_mutex_unlock(&guard);
    shared = 2;
    return unused;
}

int main(void)
{
    pthread_t one, other;
    pthread_create(&one, NULL, first, NULL);
    pthread_create(&other, NULL, second, NULL);
    pthread_join(one, NULL);
    pthread_join(other, NULL);
    return shared != 2;
}
