// Races: none
// The last of several shared pointers deletes the object, whose counts are atomic.
#include <cstdio>
#include <memory>
#include <thread>
#include <vector>

struct Object {
    int cells[4] = {};
    ~Object() { std::printf("%d\n", cells[0] + cells[1] + cells[2] + cells[3]); }
};

int main()
{
    std::vector<std::thread> threads;
    {
        auto object = std::make_shared<Object>();
        for (int i = 0; i < 4; i++)
            threads.emplace_back([object, i] { object->cells[i] = 1; });
    }
    for (auto &thread : threads)
        thread.join();
}
