/* Races: by_cat by_chr by_cmp by_copy by_dup by_fill by_len by_move by_print by_str by_write
 * Each function of the C library loads or stores what another thread stores too. */
#include <pthread.h>
#include <stdio.h>
#include <stdlib.h>
#include <string.h>
#include <unistd.h>

static char by_cat[32] = "a", by_chr[32] = "ab", by_cmp[32] = "ab", by_copy[32], by_dup[32] = "ab";
static char by_fill[32], by_len[32] = "ab", by_move[32], by_print[32], by_str[32] = "ab", by_write[32];
static int ends[2];
/* At -O2 gcc expands calls of a constant length in place, which are not instrumented then. */
static volatile size_t length = 32;

static void *work(void *unused)
{
    size_t sum = 0;
    char *copied;
    strcat(by_cat, "b");
    sum += strchr(by_chr, 'a') != NULL;
    sum += (size_t)strcmp(by_cmp, "abc");
    strncpy(by_copy, "abc", length);
    copied = strdup(by_dup);
    sum += (size_t)copied[0];
    free(copied);
    memset(by_fill, (int)sum, length);
    sum += strlen(by_len);
    memmove(by_move, by_move + 1, 8);
    snprintf(by_print, sizeof by_print, "%zu", sum);
    sum += strstr(by_str, "b") != NULL;
    return write(ends[1], by_write, 4) == 4 && sum ? unused : NULL;
}

int main(void)
{
    pthread_t thread;
    char *all[] = { by_cat, by_chr, by_cmp, by_copy, by_dup, by_fill, by_len,
                    by_move, by_print, by_str, by_write };
    if (pipe(ends) != 0)
        return 1;
    pthread_create(&thread, NULL, work, NULL);
    for (size_t i = 0; i < sizeof all / sizeof *all; i++)
        *(volatile char *)all[i] = 'x';
    pthread_join(thread, NULL);
    return 0;
}
