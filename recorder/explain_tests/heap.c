/* A race on a member of a block of the heap. */
#include "turns.h"
#include <stdlib.h>

struct node { long key; int count; char text[52]; };

__attribute__((noinline)) static struct node *make_node(void)
{
    return malloc(sizeof(struct node));
}

static void *count(void *node)
{
    ((struct node *)node)->count = 1;
    pass(1);
    return NULL;
}

int main(void)
{
    pthread_t counter;
    struct node *node = make_node();
    pthread_create(&counter, NULL, count, node);
    await(1);
    node->count = 2;
    pthread_join(counter, NULL);
    free(node);
}
