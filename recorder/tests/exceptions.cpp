// Races: none
// Exceptions that leave sections, functions and a task; the locks are given back.
#include <cstdio>
#include <future>
#include <mutex>
#include <stdexcept>
#include <thread>

static std::mutex mutex;
static int caught;

static void fail(int depth)
{
    if (depth == 0) {
        std::lock_guard<std::mutex> held(mutex);
        caught++;
        throw std::runtime_error("as meant");
    }
    fail(depth - 1);
}

static void work()
{
    for (int i = 0; i < 10; i++)
        try {
            fail(5);
        } catch (const std::runtime_error &) {
            std::lock_guard<std::mutex> held(mutex);
            caught++;
        }
}

int main()
{
    std::thread thread(work);
    work();
    thread.join();
    try {
        std::async(std::launch::async, [] { fail(3); }).get();
    } catch (const std::runtime_error &) {
        std::printf("%d\n", caught);
    }
    return caught == 41 ? 0 : 1;
}
