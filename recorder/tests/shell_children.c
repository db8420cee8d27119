/* Races: racy
 * Programs that are not instrumented, by system, popen and posix_spawn, leave the own trace alone. */
#include <pthread.h>
#include <spawn.h>
#include <stdio.h>
#include <stdlib.h>
#include <sys/wait.h>

static volatile int racy;
extern char **environ;

static void *work(void *unused)
{
    racy++;
    return unused;
}

int main(void)
{
    pthread_t thread;
    pid_t child;
    char *words[] = { "true", NULL }, answer[8] = "";
    if (system("exit 3") != 3 << 8)
        return 1;
    FILE *pipe = popen("echo yes", "r");
    if (!pipe || !fgets(answer, sizeof answer, pipe) || pclose(pipe) != 0)
        return 1;
    if (posix_spawnp(&child, "true", NULL, NULL, words, environ) != 0)
        return 1;
    waitpid(child, NULL, 0);
    pthread_create(&thread, NULL, work, NULL);
    racy++;
    pthread_join(thread, NULL);
    printf("%s", answer);
    return 0;
}
