/* Races: racy
 * Cut: the trace cannot be opened
 * A program that this one runs ends as ever where its trace cannot be opened: only then is there a race. */
#include <pthread.h>
#include <stdlib.h>
#include <sys/wait.h>
#include <unistd.h>

static int racy;

static void *add(void *given)
{
    (void)given;
    racy++;
    return NULL;
}

int main(int count, char **words)
{
    pthread_t thread;
    int status = 0;
    if (count > 1)
        return 7;
    pid_t child = fork();
    if (child == 0) {
        setenv("WCP_TRACE", "/nowhere/trace", 1);
        execl(words[0], words[0], "again", (char *)NULL);
        _exit(1);
    }
    waitpid(child, &status, 0);
    if (!WIFEXITED(status) || WEXITSTATUS(status) != 7)
        return 1;
    pthread_create(&thread, NULL, add, NULL);
    racy++;
    pthread_join(thread, NULL);
    return 0;
}
