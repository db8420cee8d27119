// Races: none
// An atomic flag hands the message on.
#include <atomic>
#include <cstdio>
#include <thread>

static int message;
static std::atomic<bool> ready{false};

int main()
{
    std::thread reader([] {
        while (!ready.load(std::memory_order_acquire))
            std::this_thread::yield();
        std::printf("%d\n", message);
    });
    message = 42;
    ready.store(true, std::memory_order_release);
    reader.join();
}
