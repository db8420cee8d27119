/* Races: in_plugin
 * Library: plugin_part.c
 * A plug-in that is loaded by dlopen and used by two threads. */
#include <dlfcn.h>
#include <pthread.h>
#include <stdio.h>

static void (*call)(void);

static void *work(void *unused)
{
    call();
    return unused;
}

int main(int count, char **words)
{
    pthread_t thread;
    char path[4096];
    snprintf(path, sizeof path, "%s.so", words[count - 1]);
    void *plugin = dlopen(path, RTLD_NOW);
    if (!plugin)
        return 1;
    *(void **)&call = dlsym(plugin, "call");
    pthread_create(&thread, NULL, work, NULL);
    call();
    pthread_join(thread, NULL);
    return 0;
}
