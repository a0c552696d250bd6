/* Outside of the module language: a width in a format, and a result of printf that is used. */
#include <pthread.h>
#include <stdio.h>

static int total;

static void *add(void *unused)
{
    total += 7;
    return NULL;
}

int main(void)
{
    pthread_t thread;
    pthread_create(&thread, NULL, add, NULL);
    total += 5;
    pthread_join(thread, NULL);
    int printed = printf("%4d\n", total);
    return printed == 5 ? 0 : 1;
}
