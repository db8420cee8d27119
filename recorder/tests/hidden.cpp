// Races: announced
// The schedule hides the race: ThreadSanitizer is silent. Threads that take one lock, one after the other,
// with unrelated work in the sections.
#include "../explain_tests/turns.h"
#include <cstdio>
#include <mutex>
#include <thread>

static std::mutex mutex;
static int announced, first, second;

int main()
{
    std::thread writer([] {
        announced = 3;
        {
            std::lock_guard<std::mutex> held(mutex);
            first++;
        }
        pass(1);
    });
    await(1);
    std::thread reader([] {
        {
            std::lock_guard<std::mutex> held(mutex);
            second++;
        }
        std::printf("%d\n", announced);
    });
    writer.join();
    reader.join();
}
