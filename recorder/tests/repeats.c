/* Accesses that look repeated, and of which a report names each: between them the bytes were accessed by
 * another thread, or at another place, or the thread is in a section. repeats.py compares the report with
 * that of all accesses. */
#include "../explain_tests/turns.h"
#include <stdlib.h>
#include <string.h>

/* The thread that spins looks so often before the store comes that it waits for; then it looks slowly. */
enum { LOOKS = 2000 };
static volatile int looks;
__attribute__((no_sanitize("thread"), noinline)) static void look(void)
{
    if (++looks > LOOKS)
        usleep(100);
}
__attribute__((no_sanitize("thread"), noinline)) static void await_looks(void)
{
    while (looks < LOOKS)
        usleep(1000);
}

static volatile long places, between, in_section, guarded, mixed, spun;
static volatile int many[2048];
static volatile size_t length = sizeof many;
static char *block;
static pthread_mutex_t mutex = PTHREAD_MUTEX_INITIALIZER;

__attribute__((noinline)) static void two_places(int way)
{
    if (way % 2)
        places = 1;
    else
        places = 2;
}

__attribute__((noinline)) static void load_all(void)
{
    (void)between;
    (void)mixed;
    (void)many[1000];
    ((volatile char *)block)[100] = 1;
}

/* The compiler does not know the number of rounds, so each loop has one place of the code. */
static void *first(void *given)
{
    long rounds = (long)given;
    await(1);
    for (int way = 0; way < rounds; way++)
        two_places(way);
    pass(2);
    await(3);
    pthread_mutex_lock(&mutex);
    for (int round = 0; round < rounds; round++) {
        (void)in_section;
        (void)guarded;
    }
    pthread_mutex_unlock(&mutex);
    for (int round = 0; round < rounds; round++) {
        load_all();
        pass(2 * round + 4);
        await(2 * round + 5);
    }
    while (!spun)
        look();
    return given;
}

static void *second(void *given)
{
    in_section = 1;
    pass(1);
    await(4);
    between = 1;
    memset((void *)many, 1, length);
    pass(5);
    await(6);
    __atomic_store_n(&mixed, 1, __ATOMIC_RELAXED);
    pass(7);
    await(8);
    free(block);
    pass(9);
    await(10);
    between = 2;
    pass(11);
    await(12);
    pass(13);
    await_looks();
    spun = 1;
    return given;
}

static void *third(void *given)
{
    await(2);
    places = 3;
    in_section = 2;
    pthread_mutex_lock(&mutex);
    guarded = 1;
    pthread_mutex_unlock(&mutex);
    pass(3);
    return given;
}

int main(void)
{
    pthread_t threads[3];
    void *(*const work[])(void *) = { first, second, third };
    block = malloc(200);
    for (int i = 0; i < 3; i++)
        pthread_create(&threads[i], NULL, work[i], (void *)5);
    for (int i = 0; i < 3; i++)
        pthread_join(threads[i], NULL);
    return 0;
}
