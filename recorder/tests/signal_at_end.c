/* Races: racy
 * Status: -14
 * A signal that ends the process comes while its trace is written: it waits until that is done. */
#include <pthread.h>
#include <signal.h>
#include <sys/syscall.h>
#include <unistd.h>

enum { VALUES = 50000 };
static int values[VALUES], racy;
static volatile int is_ending;

/* By this the recorder writes the trace, in several parts: with each of them the signal comes. */
__attribute__((no_sanitize("thread"))) ssize_t write(int file, const void *at, size_t size)
{
    if (is_ending)
        syscall(SYS_kill, getpid(), SIGALRM);
    return syscall(SYS_write, file, at, size);
}

static void *store(void *given)
{
    (void)given;
    racy++;
    for (int i = 0; i < VALUES; i++)
        values[i]++;
    return NULL;
}

int main(void)
{
    pthread_t thread;
    for (int i = 0; i < VALUES; i++)
        values[i] = i;
    pthread_create(&thread, NULL, store, NULL);
    racy++;
    pthread_join(thread, NULL);
    is_ending = 1;
    return 0;
}
