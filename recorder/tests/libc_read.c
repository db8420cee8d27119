/* Races: buffer
 * A read stores into a buffer that another thread loads. */
#include <pthread.h>
#include <stdio.h>
#include <unistd.h>

static char buffer[8];
static int ends[2];

static void *work(void *unused)
{
    if (read(ends[0], buffer, sizeof buffer) < 0)
        return NULL;
    return unused;
}

int main(void)
{
    pthread_t thread;
    if (pipe(ends) != 0 || write(ends[1], "abc", 3) != 3)
        return 1;
    pthread_create(&thread, NULL, work, NULL);
    volatile char seen = buffer[0];
    pthread_join(thread, NULL);
    printf("%d\n", seen == 'b');
    return 0;
}
