// Races: none
// Levels: -O1 -O2
// At -O0 the accesses of std::map are in libstdc++, which is not instrumented: the sections on the mutex look
// empty, and are not ordered.
#include "../explain_tests/turns.h"
#include <cstdio>
#include <map>
#include <mutex>
#include <string>
#include <thread>
#include <vector>

struct Registry {
    std::vector<std::string> names;
    std::map<std::string, int> ages;
    std::mutex mutex;

    void add(const std::string &name, int age)
    {
        names.push_back(name);
        std::lock_guard<std::mutex> held(mutex);
        ages[name] = age;
    }

    size_t look(const std::string &name)
    {
        {
            std::lock_guard<std::mutex> held(mutex);
            if (!ages.count(name))
                return 0;
        }
        return names.size() + names[0].size();
    }
};

static Registry *registry;

int main()
{
    registry = new Registry;
    registry->names.reserve(4);
    std::thread loader([] {
        registry->add("ann", 3);
        pass(1);
    });
    await(1);
    std::thread user([] { std::printf("%zu\n", registry->look("ann")); });
    loader.join();
    user.join();
    delete registry;
}
