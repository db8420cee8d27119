// Races: heap
// An object is used by one thread, and deleted by another.
#include "../explain_tests/turns.h"
#include <thread>

struct Account {
    volatile int balance = 0;
};

int main()
{
    Account *account = new Account;
    std::thread worker([account] {
        account->balance = 2;
        pass(1);
    });
    await(1);
    delete account;
    worker.join();
}
