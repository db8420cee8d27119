/* Races: none
 * Relaxed updates hand on what the release before them published: the count of references of a block, which
 * the last to give up frees. */
#include <pthread.h>
#include <stdatomic.h>
#include <stdio.h>
#include <stdlib.h>

struct shared {
    atomic_int references;
    int cells[4];
};

static void give_up(struct shared *shared)
{
    if (atomic_fetch_sub_explicit(&shared->references, 1, memory_order_release) == 1) {
        atomic_thread_fence(memory_order_acquire);
        int sum = 0;
        for (int i = 0; i < 4; i++)
            sum += shared->cells[i];
        printf("%d\n", sum);
        free(shared);
    }
}

static void *work(void *given)
{
    struct shared *shared = given;
    static atomic_int next;
    shared->cells[atomic_fetch_add_explicit(&next, 1, memory_order_relaxed)] = 1;
    give_up(shared);
    return NULL;
}

int main(void)
{
    pthread_t threads[4];
    struct shared *shared = calloc(1, sizeof *shared);
    atomic_init(&shared->references, 4);
    for (int i = 0; i < 4; i++)
        pthread_create(&threads[i], NULL, work, shared);
    for (int i = 0; i < 4; i++)
        pthread_join(threads[i], NULL);
    return 0;
}
