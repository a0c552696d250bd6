/* Three threads add to one counter without a lock, so additions may be lost. */
#include <pthread.h>
#include <stdio.h>

#define THREADS 3
#define ROUNDS 4

static long counter;
static unsigned short finished;

static void *count(void *argument)
{
    int step = *(int *)argument;
    for (int round = 0; round < ROUNDS; round++) {
        counter += step;
    }
    finished++;
    return NULL;
}

int main(void)
{
    pthread_t threads[THREADS];
    int steps[THREADS] = {1, 10, 100};
    for (int i = 0; i < THREADS; i++) {
        if (pthread_create(&threads[i], NULL, count, &steps[i]) != 0) {
            puts("no thread");
            return 1;
        }
    }
    for (int i = 0; i < THREADS; i++) {
        pthread_join(threads[i], NULL);
    }
    printf("counter %ld after %u threads\n", counter, (unsigned)finished);
    return counter == 444 ? 0 : 2;
}
