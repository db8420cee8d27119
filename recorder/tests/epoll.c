/* Races: none
 * A worker in epoll_wait gets a pointer that main registered by epoll_ctl. */
#include <pthread.h>
#include <stdio.h>
#include <stdlib.h>
#include <sys/epoll.h>
#include <unistd.h>

static int events;

static void *work(void *unused)
{
    struct epoll_event event;
    if (epoll_wait(events, &event, 1, -1) == 1)
        printf("%d\n", *(int *)event.data.ptr);
    return unused;
}

int main(void)
{
    pthread_t thread;
    int ends[2], *number;
    struct epoll_event event = { .events = EPOLLIN };
    events = epoll_create1(0);
    if (pipe(ends) != 0)
        return 1;
    pthread_create(&thread, NULL, work, NULL);
    number = malloc(sizeof *number);
    *number = 7;
    event.data.ptr = number;
    epoll_ctl(events, EPOLL_CTL_ADD, ends[0], &event);
    if (write(ends[1], "x", 1) < 0)
        return 1;
    pthread_join(thread, NULL);
    return 0;
}
