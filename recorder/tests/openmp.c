/* Races: none
 * Compilers: gcc
 * Flags: -fopenmp
 * Parallel regions, critical and atomic sections, reductions, barriers, locks and ordered work shares. */
#include <omp.h>
#include <stdio.h>

static int cells[64], critical, updated, shared, locked;

int main(void)
{
    int sum = 0;
    omp_lock_t lock;
    omp_init_lock(&lock);
    for (int round = 0; round < 3; round++) {
#pragma omp parallel num_threads(4) reduction(+ : sum)
        {
#pragma omp for
            for (int i = 0; i < 64; i++)
                cells[i] += i;
#pragma omp for schedule(dynamic)
            for (int i = 0; i < 64; i++)
                sum += cells[63 - i];
#pragma omp critical
            critical++;
#pragma omp atomic
            updated++;
#pragma omp single
            shared = sum;
            sum += shared;
            omp_set_lock(&lock);
            locked++;
            omp_unset_lock(&lock);
#pragma omp barrier
#pragma omp master
            shared = 0;
        }
    }
    printf("%d %d %d\n", critical, updated, locked);
    return critical == 12 && locked == 12 ? 0 : 1;
}
