/* Races: none
 * Memory of mmap that one thread gives back, and another gets. */
#define _GNU_SOURCE
#include <pthread.h>
#include <stdio.h>
#include <sys/mman.h>

static void *work(void *unused)
{
    for (int i = 0; i < 50; i++) {
        int *page = mmap(NULL, 4096, PROT_READ | PROT_WRITE, MAP_PRIVATE | MAP_ANONYMOUS, -1, 0);
        *page = i;
        page = mremap(page, 4096, 8192, MREMAP_MAYMOVE);
        page[1024] = i;
        munmap(page, 8192);
    }
    return unused;
}

int main(void)
{
    pthread_t thread;
    pthread_create(&thread, NULL, work, NULL);
    work(NULL);
    pthread_join(thread, NULL);
    return 0;
}
