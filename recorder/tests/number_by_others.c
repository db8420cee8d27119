/* Races: racy
 * As number_again.c, where fclose frees the number and other calls give it out again. */
#define _GNU_SOURCE
#include <fcntl.h>
#include <pthread.h>
#include <sched.h>
#include <signal.h>
#include <stdio.h>
#include <sys/epoll.h>
#include <sys/signalfd.h>
#include <sys/timerfd.h>
#include <unistd.h>

static int slots[1024], number, racy;
static FILE *stream;

static int by_openat(void) { return openat(AT_FDCWD, "/dev/null", O_RDONLY); }
static int by_openat64(void) { return openat64(AT_FDCWD, "/dev/null", O_RDONLY); }
static int by_epoll_create(void) { return epoll_create(1); }
static int by_epoll_create1(void) { return epoll_create1(0); }
static int by_fcntl(void) { return fcntl(1, F_DUPFD, 0); }
static int by_fcntl64(void) { return fcntl64(1, F_DUPFD_CLOEXEC, 0); }
static int by_timer(void) { return timerfd_create(CLOCK_MONOTONIC, 0); }
static int by_signals(void)
{
    sigset_t none;
    sigemptyset(&none);
    return signalfd(-1, &none, 0);
}

static void *leave(void *unused)
{
    slots[number]++;
    fclose(stream);
    racy++;
    return unused;
}

static void come(int (*get)(void))
{
    int got;
    while ((got = get()) != number) {
        close(got);
        sched_yield();
    }
    slots[got]++;
    racy++;
    close(got);
}

static void *come_by_get(void *get)
{
    come(*(int (**)(void))get);
    return NULL;
}

static void *come_by_fopen(void *unused)
{
    FILE *got;
    while (fileno(got = fopen("/dev/null", "r")) != number) {
        fclose(got);
        sched_yield();
    }
    slots[fileno(got)]++;
    racy++;
    fclose(got);
    return unused;
}

static void hand_over(void *(*taker)(void *), void *given)
{
    pthread_t threads[2];
    stream = fopen("/dev/null", "r");
    number = fileno(stream);
    pthread_create(&threads[0], NULL, taker, given);
    pthread_create(&threads[1], NULL, leave, NULL);
    pthread_join(threads[0], NULL);
    pthread_join(threads[1], NULL);
}

int main(void)
{
    int (*calls[])(void) = { by_openat, by_openat64, by_epoll_create, by_epoll_create1,
                             by_fcntl,  by_fcntl64,  by_timer,        by_signals };
    int count = sizeof calls / sizeof *calls;
    for (int i = 0; i < count; i++)
        hand_over(come_by_get, &calls[i]);
    hand_over(come_by_fopen, NULL);
    printf("%d\n", slots[number]);
    return 0;
}
