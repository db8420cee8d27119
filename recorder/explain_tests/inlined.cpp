// A member that is inlined into its callers, with locks of C++.
#include "turns.h"
#include <mutex>

class Account {
public:
    void credit(long amount);
    long balance = 0;
};

__attribute__((always_inline)) inline void Account::credit(long amount)
{
    balance = amount;
}

static std::mutex guard;
Account account;
long first_done, second_done;

__attribute__((noinline)) static void *pay_in(void *unused)
{
    account.credit(5);
    guard.lock();
    first_done = 1;
    guard.unlock();
    pass(1);
    return unused;
}

__attribute__((noinline)) static void *pay_out(void *unused)
{
    await(1);
    guard.lock();
    second_done = 1;
    guard.unlock();
    account.credit(7);
    return unused;
}

int main()
{
    pthread_t first, second;
    pthread_create(&first, NULL, pay_in, NULL);
    pthread_create(&second, NULL, pay_out, NULL);
    pthread_join(first, NULL);
    pthread_join(second, NULL);
    return first_done + second_done != 2;
}
