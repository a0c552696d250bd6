/* Outside of the module language: a thread's function of another type, made to fit by a cast. */
#include <pthread.h>
#include <stdio.h>

static int ticks;

static void tick(void)
{
    ticks++;
}

int main(void)
{
    pthread_t thread;
    pthread_create(&thread, NULL, (void *(*)(void *))tick, NULL);
    ticks++;
    pthread_join(thread, NULL);
    printf("%d\n", ticks);
    return 0;
}
