/* Races: other
 * Two threads store into one page of mmap. */
#define _GNU_SOURCE
#include <pthread.h>
#include <sys/mman.h>

static void *work(void *page)
{
    *(volatile int *)page = 1;
    return NULL;
}

int main(void)
{
    pthread_t thread;
    int *page = mmap(NULL, 4096, PROT_READ | PROT_WRITE, MAP_PRIVATE | MAP_ANONYMOUS, -1, 0);
    pthread_create(&thread, NULL, work, page);
    work(page);
    pthread_join(thread, NULL);
    return 0;
}
