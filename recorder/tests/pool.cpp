// Races: racy
// A pool of three threads takes tasks from a queue; `racy` is stored by two tasks, on two threads.
#include <atomic>
#include <condition_variable>
#include <cstdio>
#include <deque>
#include <functional>
#include <mutex>
#include <thread>
#include <vector>

class Pool {
  public:
    explicit Pool(int count)
    {
        for (int i = 0; i < count; i++)
            workers.emplace_back([this] { work(); });
    }

    ~Pool()
    {
        {
            std::lock_guard<std::mutex> held(mutex);
            is_closed = true;
        }
        changed.notify_all();
        for (auto &worker : workers)
            worker.join();
    }

    void add(std::function<void()> task)
    {
        {
            std::lock_guard<std::mutex> held(mutex);
            tasks.push_back(std::move(task));
        }
        changed.notify_one();
    }

  private:
    void work()
    {
        for (;;) {
            std::function<void()> task;
            {
                std::unique_lock<std::mutex> held(mutex);
                changed.wait(held, [this] { return is_closed || !tasks.empty(); });
                if (tasks.empty())
                    return;
                task = std::move(tasks.front());
                tasks.pop_front();
            }
            task();
        }
    }

    std::mutex mutex;
    std::condition_variable changed;
    std::deque<std::function<void()>> tasks;
    bool is_closed = false;
    std::vector<std::thread> workers;
};

static int racy, kept;
static std::atomic<int> started{0};
static std::mutex guard;

int main()
{
    Pool pool(3);
    for (int i = 0; i < 2; i++)
        pool.add([] {
            racy++;
            started.fetch_add(1, std::memory_order_relaxed);
            while (started.load(std::memory_order_relaxed) < 2)
                std::this_thread::yield();
        });
    for (int i = 0; i < 6; i++)
        pool.add([] {
            std::lock_guard<std::mutex> held(guard);
            kept++;
        });
}
