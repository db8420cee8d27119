// Races: heap
// Both threads store into `shared`. Each also stores into a block of its own, without a lock, and the second
// gets the memory that the first freed: those do not race.
#include "../explain_tests/turns.h"
#include <cstdio>
#include <cstdlib>
#include <thread>

static int *shared;
static void *blocks[2];

static void work(int number)
{
    int *own = static_cast<int *>(std::malloc(64));
    *own = number;
    blocks[number] = own;
    std::free(own);
    *shared = number;
    leave();
}

int main()
{
    shared = static_cast<int *>(std::malloc(sizeof(int)));
    std::thread first(work, 0);
    await_end();
    std::thread second(work, 1);
    first.join();
    second.join();
    std::printf("%s\n", blocks[0] == blocks[1] ? "one place" : "two places");
    std::free(shared);
}
