/* Races: none
 * A mutex of C's own keeps the counter. */
#include <stdio.h>
#include <threads.h>

static mtx_t mutex;
static int counter;

static int work(void *unused)
{
    (void)unused;
    for (int i = 0; i < 10; i++) {
        mtx_lock(&mutex);
        counter++;
        mtx_unlock(&mutex);
    }
    return 0;
}

int main(void)
{
    thrd_t thread;
    mtx_init(&mutex, mtx_plain);
    thrd_create(&thread, work, NULL);
    work(NULL);
    thrd_join(thread, NULL);
    printf("%d\n", counter);
    return 0;
}
