/* Races: none
 * A thread waits for a signal that main sends it by pthread_kill. */
#include <pthread.h>
#include <signal.h>
#include <stdio.h>

static int data;
static sigset_t awaited;

static void *work(void *unused)
{
    int number = 0;
    sigwait(&awaited, &number);
    printf("%d %d\n", number == SIGUSR1, data);
    return unused;
}

int main(void)
{
    pthread_t thread;
    sigemptyset(&awaited);
    sigaddset(&awaited, SIGUSR1);
    pthread_sigmask(SIG_BLOCK, &awaited, NULL);
    pthread_create(&thread, NULL, work, NULL);
    data = 7;
    pthread_kill(thread, SIGUSR1);
    pthread_join(thread, NULL);
    return 0;
}
