/* Outside of the module language: the address of a global as a number that the compiler works out. */
#include <pthread.h>
#include <stddef.h>
#include <stdio.h>

static int cells[4] = {5, 7, 6, 8};
static int *greatest = cells;

static void *find_greatest(void *unused)
{
    for (int *cell = cells; cell < &cells[4]; cell++) {
        if (*cell > *greatest) {
            greatest = cell;
        }
    }
    return NULL;
}

int main(void)
{
    pthread_t thread;
    pthread_create(&thread, NULL, find_greatest, NULL);
    cells[0] = 9;
    pthread_join(thread, NULL);
    ptrdiff_t place = greatest - cells;
    printf("%ld\n", place);
    return 0;
}
