/* Outside of the module language: a thread whose function is chosen by a variable. */
#include <pthread.h>
#include <stdio.h>

static int steps;

static void *walk(void *unused)
{
    steps += 1;
    return NULL;
}

static void *run(void *unused)
{
    steps += 2;
    return NULL;
}

int main(void)
{
    pthread_t thread;
    void *(*gait)(void *) = walk;
    if (steps == 0) {
        gait = run;
    }
    pthread_create(&thread, NULL, gait, NULL);
    pthread_join(thread, NULL);
    printf("%d\n", steps);
    return 0;
}
