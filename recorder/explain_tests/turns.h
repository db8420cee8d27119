/* Turns that no recorder sees: by them a program runs by one schedule, and nothing is ordered by them. */
#include <pthread.h>
#include <sys/syscall.h>
#include <unistd.h>

static volatile int taken, leaving;

/* The last sleep parts the events before the turn from those after it by more than the time stamps of two
 * processors differ. */
__attribute__((no_sanitize("thread"), noinline)) static void await(int turn)
{
    while (taken < turn) usleep(1000);
    usleep(1000);
}

__attribute__((no_sanitize("thread"), noinline)) static void pass(int turn)
{
    taken = turn;
}

/* The thread that calls it is the one whose end is awaited. */
__attribute__((no_sanitize("thread"), noinline)) static void leave(void)
{
    leaving = syscall(SYS_gettid);
}

/* Then the system knows the thread no more, and its stack and its blocks are there for others. */
__attribute__((no_sanitize("thread"), noinline)) static void await_end(void)
{
    while (!leaving || syscall(SYS_tgkill, getpid(), leaving, 0) == 0) usleep(1000);
    leaving = 0;
}
