// Races: shared
// A section that holds a fork: a race by the definition, though no schedule shows it.
#include <cstdio>
#include <mutex>
#include <thread>

static std::mutex mutex;
static int shared;

int main()
{
    std::thread child;
    {
        std::lock_guard<std::mutex> held(mutex);
        child = std::thread([] {
            { std::lock_guard<std::mutex> held(mutex); }
            shared = 2;
        });
        shared = 1;
    }
    child.join();
    std::printf("%d\n", shared);
}
