/* Races: racy
 * A pipe orders what was done before the write, and not what comes after it. */
#include <pthread.h>
#include <stdio.h>
#include <unistd.h>

static int ends[2], racy;

static void *work(void *unused)
{
    char byte;
    if (read(ends[0], &byte, 1) == 1)
        racy++;
    return unused;
}

int main(void)
{
    pthread_t thread;
    if (pipe(ends) != 0)
        return 1;
    pthread_create(&thread, NULL, work, NULL);
    if (write(ends[1], "x", 1) != 1)
        return 1;
    racy++;
    pthread_join(thread, NULL);
    printf("%d\n", racy);
    return 0;
}
