// Races: racy
// Flags: -std=c++17
// Readers and writers by std::shared_mutex and std::shared_timed_mutex; `racy` is stored by readers, before
// the writer comes, whose sections would order the readers'.
#include <atomic>
#include <chrono>
#include <cstdio>
#include <mutex>
#include <shared_mutex>
#include <thread>
#include <vector>

static std::shared_mutex mutex;
static std::shared_timed_mutex timed;
static int kept, timed_kept, racy;
static std::atomic<int> readers{0};

static int read_both(int i)
{
    std::shared_lock<std::shared_mutex> held(mutex);
    std::shared_lock<std::shared_timed_mutex> timed_held(timed, std::chrono::hours(1));
    if (i == 0)
        racy++;
    return kept + timed_kept;
}

static void write_both()
{
    std::unique_lock<std::shared_mutex> held(mutex);
    std::unique_lock<std::shared_timed_mutex> timed_held(timed, std::chrono::hours(1));
    kept++;
    timed_kept++;
}

int main()
{
    std::vector<std::thread> threads;
    int sums[2] = { 0, 0 };
    for (int reader = 0; reader < 2; reader++)
        threads.emplace_back([&sums, reader] {
            for (int i = 0; i < 10; i++) {
                sums[reader] += read_both(i);
                if (i == 0)
                    readers.fetch_add(1, std::memory_order_relaxed);
            }
        });
    threads.emplace_back([] {
        while (readers.load(std::memory_order_relaxed) < 2)
            continue;
        for (int i = 0; i < 10; i++)
            write_both();
    });
    for (auto &thread : threads)
        thread.join();
    std::printf("%d\n", kept + timed_kept);
}
