/* Outside of the module language: a table of functions, and calls through it. */
#include <pthread.h>
#include <stdio.h>

static int doubled(int value) { return value * 2; }
static int negated(int value) { return -value; }

static int (*handlers[2])(int) = {doubled, negated};
static int result = 1;

static void *run(void *which)
{
    result = handlers[(long)which](result);
    return NULL;
}

int main(void)
{
    pthread_t first, second;
    pthread_create(&first, NULL, run, (void *)0);
    pthread_create(&second, NULL, run, (void *)1);
    pthread_join(first, NULL);
    pthread_join(second, NULL);
    printf("%d\n", result);
    return 0;
}
