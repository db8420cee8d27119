/* Races: racy
 * Threads of C's own, and one counter that no lock keeps. */
#include <stdio.h>
#include <threads.h>

static int racy;

static int work(void *unused)
{
    (void)unused;
    racy++;
    return 0;
}

int main(void)
{
    thrd_t thread;
    thrd_create(&thread, work, NULL);
    racy++;
    thrd_join(thread, NULL);
    printf("%d\n", racy);
    return 0;
}
