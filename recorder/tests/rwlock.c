/* Races: racy
 * A lock of readers and writers keeps `kept`; `racy` is stored by those that hold it as readers, before the
 * writer comes, whose sections would order the readers'. */
#include <pthread.h>
#include <stdatomic.h>
#include <stdio.h>

static pthread_rwlock_t lock = PTHREAD_RWLOCK_INITIALIZER;
static int kept, racy, sums[3];
static atomic_int readers;

static void *read_it(void *sum)
{
    for (int i = 0; i < 10; i++) {
        pthread_rwlock_rdlock(&lock);
        *(int *)sum += kept;
        if (i == 0)
            racy++;
        pthread_rwlock_unlock(&lock);
        if (i == 0)
            atomic_fetch_add_explicit(&readers, 1, memory_order_relaxed);
    }
    return NULL;
}

static void *write_it(void *sum)
{
    while (atomic_load_explicit(&readers, memory_order_relaxed) < 2)
        continue;
    for (int i = 0; i < 10; i++) {
        if (pthread_rwlock_trywrlock(&lock) != 0)
            pthread_rwlock_wrlock(&lock);
        *(int *)sum = ++kept;
        pthread_rwlock_unlock(&lock);
    }
    return NULL;
}

int main(void)
{
    pthread_t threads[3];
    pthread_create(&threads[0], NULL, read_it, &sums[0]);
    pthread_create(&threads[1], NULL, read_it, &sums[1]);
    pthread_create(&threads[2], NULL, write_it, &sums[2]);
    for (int i = 0; i < 3; i++)
        pthread_join(threads[i], NULL);
    printf("%d\n", kept);
    return 0;
}
