/* Outside of the module language: floating point numbers. */
#include <pthread.h>
#include <stdio.h>

static int readings[3] = {4, 8, 9};
static double average;

static void *compute(void *unused)
{
    int sum = 0;
    for (int i = 0; i < 3; i++) {
        sum += readings[i];
    }
    average = sum / 3.0;
    return NULL;
}

int main(void)
{
    pthread_t thread;
    pthread_create(&thread, NULL, compute, NULL);
    readings[2] = 12;
    pthread_join(thread, NULL);
    printf("%d\n", (int)average);
    return 0;
}
