/* Races: none
 * What is handed over by a pair of sockets, an eventfd, and vectors of a pipe. */
#include <pthread.h>
#include <stdint.h>
#include <stdio.h>
#include <sys/eventfd.h>
#include <sys/socket.h>
#include <sys/uio.h>
#include <unistd.h>

static int sockets[2], event, ends[2], first, second, third, fourth;

static void *work(void *unused)
{
    char byte;
    uint64_t value;
    struct iovec vector = { &byte, 1 };
    struct msghdr message = { .msg_iov = &vector, .msg_iovlen = 1 };
    if (recv(sockets[0], &byte, 1, 0) == 1)
        printf("%d\n", first);
    if (read(event, &value, sizeof value) == sizeof value)
        printf("%d\n", second);
    if (readv(ends[0], &vector, 1) == 1)
        printf("%d\n", third);
    if (recvmsg(sockets[0], &message, 0) == 1)
        printf("%d\n", fourth);
    return unused;
}

int main(void)
{
    pthread_t thread;
    uint64_t one = 1;
    struct iovec vector = { "x", 1 };
    struct msghdr message = { .msg_iov = &vector, .msg_iovlen = 1 };
    event = eventfd(0, 0);
    if (socketpair(AF_UNIX, SOCK_STREAM, 0, sockets) != 0 || pipe(ends) != 0)
        return 1;
    pthread_create(&thread, NULL, work, NULL);
    first = 1;
    send(sockets[1], "x", 1, 0);
    second = 2;
    if (write(event, &one, sizeof one) < 0)
        return 1;
    third = 3;
    if (writev(ends[1], &vector, 1) < 0)
        return 1;
    fourth = 4;
    if (sendmsg(sockets[1], &message, 0) < 0)
        return 1;
    pthread_join(thread, NULL);
    return 0;
}
