/* The plug-in of plugin.c. */
#include <pthread.h>

static pthread_mutex_t mutex = PTHREAD_MUTEX_INITIALIZER;
static volatile int in_plugin;
static int kept;

void call(void)
{
    in_plugin++;
    pthread_mutex_lock(&mutex);
    kept++;
    pthread_mutex_unlock(&mutex);
}
