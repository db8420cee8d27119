/* Races: none
 * A pointer is handed over by a pipe. */
#include <pthread.h>
#include <stdio.h>
#include <stdlib.h>
#include <unistd.h>

static int ends[2];

static void *work(void *unused)
{
    int *got;
    if (read(ends[0], &got, sizeof got) == sizeof got)
        printf("%d\n", *got);
    return unused;
}

int main(void)
{
    pthread_t thread;
    if (pipe(ends) != 0)
        return 1;
    pthread_create(&thread, NULL, work, NULL);
    int *number = malloc(sizeof *number);
    *number = 7;
    if (write(ends[1], &number, sizeof number) < 0)
        return 1;
    pthread_join(thread, NULL);
    return 0;
}
