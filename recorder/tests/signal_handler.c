/* Races: none
 * A handler of a signal that interrupts a thread in a section runs on that thread. Main, which alone gets the
 * signals, goes on until some came. */
#include <pthread.h>
#include <signal.h>
#include <stdio.h>
#include <string.h>
#include <sys/time.h>

static pthread_mutex_t mutex = PTHREAD_MUTEX_INITIALIZER;
static volatile sig_atomic_t alarms;
static int counter;

static void count(int number)
{
    (void)number;
    alarms++;
}

static void *work(void *gets_signals)
{
    for (int i = 0; i < 2000 || (gets_signals && alarms < 3); i++) {
        pthread_mutex_lock(&mutex);
        counter++;
        pthread_mutex_unlock(&mutex);
    }
    return NULL;
}

int main(void)
{
    pthread_t thread;
    struct sigaction action;
    struct itimerval often = { { 0, 1000 }, { 0, 1000 } }, never = { { 0, 0 }, { 0, 0 } };
    sigset_t alarm_alone;
    memset(&action, 0, sizeof action);
    action.sa_handler = count;
    action.sa_flags = SA_RESTART;
    sigaction(SIGALRM, &action, NULL);
    sigemptyset(&alarm_alone);
    sigaddset(&alarm_alone, SIGALRM);
    pthread_sigmask(SIG_BLOCK, &alarm_alone, NULL);
    pthread_create(&thread, NULL, work, NULL);
    pthread_sigmask(SIG_UNBLOCK, &alarm_alone, NULL);
    setitimer(ITIMER_REAL, &often, NULL);
    work(&action);
    setitimer(ITIMER_REAL, &never, NULL);
    pthread_join(thread, NULL);
    printf("%d\n", counter);
    return 0;
}
