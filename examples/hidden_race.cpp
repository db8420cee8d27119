// A race that the schedule hides. The writer announces how many orders it took, without a lock, and then
// works under one. The reader takes the same lock, for work of its own, before it looks at that number. In
// this run it comes after the writer, and so the lock seems to order the two accesses of `announced`. Nothing
// makes the reader come second: had it been first, it could have read the number while it was being written.
#include <chrono>
#include <cstdio>
#include <map>
#include <mutex>
#include <string>
#include <thread>

static std::mutex guard;
static std::map<std::string, int> stock;
static std::map<std::string, int> prices;
static int announced;

static void take_orders()
{
    announced = 3;
    std::lock_guard<std::mutex> held(guard);
    stock["apples"] -= 3;
}

static void print_prices()
{
    {
        std::lock_guard<std::mutex> held(guard);
        prices["apples"] += 1;
    }
    std::printf("%d orders\n", announced);
}

int main()
{
    std::thread orders(take_orders);
    std::this_thread::sleep_for(std::chrono::milliseconds(300));
    std::thread printer(print_prices);
    orders.join();
    printer.join();
}
