// Races: none
// Flags: -std=c++20
// Threads that join by themselves, and end when they are asked to; latches, barriers and semaphores of C++20.
#include <atomic>
#include <barrier>
#include <cstdio>
#include <latch>
#include <semaphore>
#include <stop_token>
#include <thread>

static int before, after, cells[2], sums[2];
static std::latch is_ready(1);
static std::binary_semaphore is_posted(0);
static std::barrier<> round_end(2);
static std::atomic<int> word{0};

static void swap_cells(int own)
{
    for (int round = 0; round < 3; round++) {
        cells[own] = round + own;
        round_end.arrive_and_wait();
        sums[own] += cells[1 - own];
        round_end.arrive_and_wait();
    }
}

int main()
{
    {
        std::jthread worker([](std::stop_token stop) {
            is_ready.wait();
            after = before;
            is_posted.release();
            while (!stop.stop_requested())
                std::this_thread::yield();
            after++;
        });
        before = 1;
        is_ready.count_down();
        is_posted.acquire();
        after++;
        worker.request_stop();
    }
    {
        std::jthread first(swap_cells, 0), second(swap_cells, 1);
    }
    {
        std::jthread waiting([] {
            word.wait(0);
            after++;
        });
        after++;
        word.store(1);
        word.notify_one();
    }
    std::printf("%d %d\n", after, sums[0]);
    return after == 5 ? 0 : 1;
}
