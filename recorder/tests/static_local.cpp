// Races: none
// A static variable of a function, std::call_once, and one that each thread has.
#include <cstdio>
#include <mutex>
#include <thread>
#include <vector>

struct Table {
    int cells[8];
    Table()
    {
        for (int i = 0; i < 8; i++)
            cells[i] = i;
    }
};

static Table &table()
{
    static Table made;
    return made;
}

static std::once_flag flag;
static int made_once;
static thread_local int own;

int main()
{
    std::vector<std::thread> threads;
    int sums[4] = {};
    for (int thread = 0; thread < 4; thread++)
        threads.emplace_back([&sums, thread] {
            std::call_once(flag, [] { made_once = 5; });
            for (int i = 0; i < 8; i++)
                own += table().cells[i];
            sums[thread] = own + made_once;
        });
    for (auto &thread : threads)
        thread.join();
    std::printf("%d\n", sums[0]);
    return sums[3] == 33 ? 0 : 1;
}
