// Races: none
// Futures, promises and packaged tasks hand on their values and what was stored before.
#include <cstdio>
#include <future>
#include <numeric>
#include <vector>

int main()
{
    std::vector<int> numbers(100);
    std::iota(numbers.begin(), numbers.end(), 0);
    std::vector<std::future<int>> parts;
    for (int part = 0; part < 4; part++)
        parts.push_back(std::async(std::launch::async, [&numbers, part] {
            return std::accumulate(numbers.begin() + 25 * part, numbers.begin() + 25 * (part + 1), 0);
        }));
    int sum = 0;
    for (auto &part : parts)
        sum += part.get();
    std::promise<void> promise;
    std::thread storing([&] {
        numbers[7] = 1;
        promise.set_value();
    });
    promise.get_future().wait();
    sum += numbers[7];
    storing.join();
    std::packaged_task<int(int)> task([&numbers](int place) { return numbers[place]; });
    auto answer = task.get_future();
    std::thread runner(std::move(task), 7);
    sum += answer.get();
    runner.join();
    std::printf("%d\n", sum);
}
