/* Races: racy
 * Compilers: gcc
 * Flags: -fopenmp
 * A counter that no section keeps. */
#include <omp.h>
#include <stdio.h>

static int racy, kept;

int main(void)
{
#pragma omp parallel num_threads(4)
    {
        racy++;
#pragma omp critical
        kept++;
    }
    printf("%d %d\n", racy, kept);
    return 0;
}
