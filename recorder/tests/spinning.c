/* Races: racy
 * Levels: -O1 -O2
 * A thread spins until another stores, by loads and by exchanges that change nothing. What it repeats is kept
 * once, so that its memory stays small: status 1 says that it grew. At -O0 the loop also loads and stores its
 * own variables, which is kept each time. */
#include <pthread.h>
#include <stdatomic.h>
#include <sys/resource.h>
#include <unistd.h>

enum { ROUNDS = 1500000, MOST_KB = 16 << 10 };
static atomic_int ready, lock, enough;
static int data, locked_data, racy, seen;

static long memory(void)
{
    struct rusage used;
    getrusage(RUSAGE_SELF, &used);
    return used.ru_maxrss;
}

static void *spin(void *given)
{
    long rounds = 0;
    (void)given;
    racy++;
    while (!atomic_load_explicit(&ready, memory_order_acquire))
        if (++rounds == ROUNDS)
            atomic_fetch_add_explicit(&enough, 1, memory_order_relaxed);
    seen = data;
    rounds = 0;
    while (atomic_exchange_explicit(&lock, 1, memory_order_acquire))
        if (++rounds == ROUNDS)
            atomic_fetch_add_explicit(&enough, 1, memory_order_relaxed);
    seen += locked_data;
    atomic_store_explicit(&lock, 0, memory_order_release);
    return NULL;
}

static void wait_for(int count)
{
    while (atomic_load_explicit(&enough, memory_order_relaxed) < count)
        usleep(1000);
}

int main(void)
{
    pthread_t thread;
    atomic_store(&lock, 1);
    pthread_create(&thread, NULL, spin, NULL);
    racy++;
    long before = memory();
    wait_for(1);
    data = 1;
    atomic_store_explicit(&ready, 1, memory_order_release);
    wait_for(2);
    locked_data = 1;
    atomic_store_explicit(&lock, 0, memory_order_release);
    pthread_join(thread, NULL);
    if (seen != 2)
        return 2;
    return memory() - before > MOST_KB;
}
