/* Races: heap
 * One thread uses two blocks; another stores into the first by snprintf, and frees the second. */
#include "../explain_tests/turns.h"
#include <stdio.h>
#include <stdlib.h>
#include <string.h>

static char *text;
static int *number;

static void *work(void *unused)
{
    printf("%zu %d\n", strlen(text), *number);
    pass(1);
    return unused;
}

int main(void)
{
    pthread_t thread;
    text = strdup("hello");
    number = malloc(sizeof *number);
    *number = 1;
    pthread_create(&thread, NULL, work, NULL);
    await(1);
    snprintf(text, 6, "%s", "bye");
    free(number);
    pthread_join(thread, NULL);
    return 0;
}
