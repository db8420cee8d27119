/* Races: racy
 * Processes: 4
 * Children of fork, with threads of their own, each in a process of its own. */
#include <pthread.h>
#include <stdio.h>
#include <sys/wait.h>
#include <unistd.h>

static volatile int racy;

static void *work(void *unused)
{
    racy++;
    return unused;
}

static void race(void)
{
    pthread_t thread;
    pthread_create(&thread, NULL, work, NULL);
    racy++;
    pthread_join(thread, NULL);
}

int main(void)
{
    int status = 0, sum = 0;
    for (int i = 0; i < 3; i++)
        if (fork() == 0) {
            race();
            return i;
        }
    race();
    for (int i = 0; i < 3; i++) {
        wait(&status);
        sum += WEXITSTATUS(status);
    }
    printf("%d\n", sum);
    return sum == 3 ? 0 : 1;
}
