/* Outside of the module language: an atomic addition. */
#include <pthread.h>
#include <stdatomic.h>
#include <stdio.h>

static atomic_int counter;

static void *count(void *unused)
{
    atomic_fetch_add(&counter, 1);
    return NULL;
}

int main(void)
{
    pthread_t thread;
    pthread_create(&thread, NULL, count, NULL);
    atomic_fetch_add(&counter, 2);
    pthread_join(thread, NULL);
    printf("%d\n", counter);
    return 0;
}
