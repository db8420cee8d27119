/* Races: none
 * Processes: 2
 * A process forks while it holds a lock, another thread holds one, and a third takes one again and again; the
 * child goes on alone. */
#include "../explain_tests/turns.h"
#include <stdatomic.h>
#include <sys/wait.h>

static pthread_mutex_t mutexes[3] = { PTHREAD_MUTEX_INITIALIZER, PTHREAD_MUTEX_INITIALIZER,
                                      PTHREAD_MUTEX_INITIALIZER };
static int counters[3];
static atomic_int is_ended;

static void *work(void *unused)
{
    while (!atomic_load(&is_ended)) {
        pthread_mutex_lock(&mutexes[0]);
        counters[0]++;
        pthread_mutex_unlock(&mutexes[0]);
    }
    return unused;
}

static void *hold(void *unused)
{
    pthread_mutex_lock(&mutexes[2]);
    counters[2]++;
    pass(1);
    await(2);
    pthread_mutex_unlock(&mutexes[2]);
    return unused;
}

static void *count(void *unused)
{
    pthread_mutex_lock(&mutexes[1]);
    counters[1]++;
    pthread_mutex_unlock(&mutexes[1]);
    return unused;
}

int main(void)
{
    pthread_t threads[2], other;
    int status = 1;
    pthread_create(&threads[0], NULL, work, NULL);
    pthread_create(&threads[1], NULL, hold, NULL);
    await(1);
    pthread_mutex_lock(&mutexes[1]);
    pid_t child = fork();
    pthread_mutex_unlock(&mutexes[1]);
    if (child != 0) {
        atomic_store(&is_ended, 1);
        pass(2);
    }
    pthread_create(&other, NULL, count, NULL);
    count(NULL);
    pthread_join(other, NULL);
    if (child == 0)
        _exit(0);
    waitpid(child, &status, 0);
    for (int i = 0; i < 2; i++)
        pthread_join(threads[i], NULL);
    return status;
}
