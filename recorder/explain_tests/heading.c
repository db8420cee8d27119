/* One function races with three others: its entries stand under one heading, the other race apart. */
#include "turns.h"

int x, y, z, other;

__attribute__((noinline)) static void reset(void)
{
    x = 0;
    y = 0;
    z = 0;
}

static void *resetting(void *unused)
{
    reset();
    pass(1);
    await(2);
    other = 1;
    return unused;
}

__attribute__((noinline)) static void set_x(void)
{
    x = 1;
}

__attribute__((noinline)) static void set_y(void)
{
    y = 1;
}

__attribute__((noinline)) static void set_z(void)
{
    z = 1;
}

int main(void)
{
    pthread_t thread;
    pthread_create(&thread, NULL, resetting, NULL);
    await(1);
    set_x();
    set_y();
    set_z();
    other = 2;
    pass(2);
    pthread_join(thread, NULL);
}
