/* Races: none
 * A condition variable, a once and a timed wait of C's own. */
#include <stdio.h>
#include <threads.h>
#include <time.h>

static mtx_t mutex;
static cnd_t is_ready;
static once_flag flag = ONCE_FLAG_INIT;
static int made, ready, data;

static void make(void)
{
    made = 1;
}

static int work(void *unused)
{
    (void)unused;
    call_once(&flag, make);
    data = made;
    mtx_lock(&mutex);
    ready = 1;
    cnd_broadcast(&is_ready);
    mtx_unlock(&mutex);
    return 7;
}

int main(void)
{
    thrd_t thread;
    struct timespec until;
    int ended = 0;
    mtx_init(&mutex, mtx_timed);
    cnd_init(&is_ready);
    thrd_create(&thread, work, NULL);
    call_once(&flag, make);
    timespec_get(&until, TIME_UTC);
    until.tv_sec += 3600;
    if (mtx_timedlock(&mutex, &until) != thrd_success)
        return 1;
    while (!ready)
        if (cnd_timedwait(&is_ready, &mutex, &until) != thrd_success)
            return 1;
    mtx_unlock(&mutex);
    printf("%d\n", data + made);
    thrd_join(thread, &ended);
    return ended == 7 ? 0 : 1;
}
