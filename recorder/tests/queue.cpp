// Races: none
// A queue with a condition variable hands on what was stored before each push.
#include <condition_variable>
#include <cstdio>
#include <memory>
#include <mutex>
#include <queue>
#include <thread>

static std::queue<std::unique_ptr<int>> items;
static std::mutex guard;
static std::condition_variable is_pushed;

static int pop()
{
    std::unique_lock<std::mutex> held(guard);
    is_pushed.wait(held, [] { return !items.empty(); });
    int item = *items.front();
    items.pop();
    return item;
}

int main()
{
    int sum = 0;
    std::thread reader([&] {
        for (int i = 0; i < 3; i++)
            sum += pop();
    });
    for (int i = 0; i < 3; i++) {
        auto item = std::make_unique<int>(i);
        std::lock_guard<std::mutex> held(guard);
        items.push(std::move(item));
        is_pushed.notify_one();
    }
    reader.join();
    std::printf("%d\n", sum);
}
