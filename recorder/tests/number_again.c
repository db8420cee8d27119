/* Races: racy
 * The number of a descriptor is given out again once it was closed. That orders what was done before the
 * close, and not what comes after it. */
#include <fcntl.h>
#include <pthread.h>
#include <sched.h>
#include <stdio.h>
#include <sys/socket.h>
#include <unistd.h>

static int slots[1024], number, racy;

static void *leave(void *unused)
{
    slots[number]++;
    close(number);
    racy++;
    return unused;
}

static void *come(void *unused)
{
    int got;
    while ((got = socket(AF_UNIX, SOCK_STREAM, 0)) != number) {
        close(got);
        sched_yield();
    }
    slots[got]++;
    racy++;
    close(got);
    return unused;
}

int main(void)
{
    pthread_t threads[2];
    number = open("/dev/null", O_RDONLY);
    if (number < 0)
        return 1;
    pthread_create(&threads[0], NULL, come, NULL);
    pthread_create(&threads[1], NULL, leave, NULL);
    pthread_join(threads[0], NULL);
    pthread_join(threads[1], NULL);
    printf("%d\n", slots[number]);
    return slots[number] == 2 ? 0 : 1;
}
