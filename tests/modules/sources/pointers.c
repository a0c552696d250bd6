/* Pointers compared, tagged in their lowest bit, kept as numbers and chosen by conditions. */
#include <pthread.h>
#include <stddef.h>
#include <stdint.h>
#include <stdio.h>

static int cells[8] = {3, 1, 4, 1, 5, 9, 2, 6};
static int *const end = &cells[8];
static uintptr_t tagged;
static int *best = cells;

static void *find_greatest(void *unused)
{
    for (int *cell = cells; cell < end; cell++) {
        best = *cell > *best ? cell : best;
    }
    tagged = (uintptr_t)best | 1;
    return best;
}

static int *untagged(uintptr_t pointer)
{
    return (int *)(pointer & ~(uintptr_t)1);
}

int main(void)
{
    pthread_t thread;
    void *found;
    int *start = cells, *middle = start + 4;
    int *device = (int *)0x7fff0000;

    pthread_create(&thread, NULL, find_greatest, NULL);
    *middle = 0;
    pthread_join(thread, &found);

    ptrdiff_t place = (int *)found - start;
    int is_tagged = tagged & 1 ? 1 : 0;
    printf("%ld %d %d\n", place, is_tagged, untagged(tagged) == best);
    printf("%d %d\n", middle > best && middle != end, device == NULL || best == found);
    return *best == 9 ? 0 : 1;
}
