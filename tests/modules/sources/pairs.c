/* Outside of the module language: a function that returns a struct of two words. */
#include <pthread.h>
#include <stdio.h>

struct range {
    long least, greatest;
};

static long samples[4] = {4, 2, 9, 3};

static struct range range_of(const long *numbers, int count)
{
    struct range range = {numbers[0], numbers[0]};
    for (int i = 1; i < count; i++) {
        range.least = numbers[i] < range.least ? numbers[i] : range.least;
        range.greatest = numbers[i] > range.greatest ? numbers[i] : range.greatest;
    }
    return range;
}

static void *sample(void *unused)
{
    samples[1] = 1;
    return NULL;
}

int main(void)
{
    pthread_t thread;
    pthread_create(&thread, NULL, sample, NULL);
    struct range range = range_of(samples, 4);
    pthread_join(thread, NULL);
    printf("%ld %ld\n", range.least, range.greatest);
    return 0;
}
