/* Outside of the module language: a stream of the C library. */
#include <pthread.h>
#include <stdio.h>

static int errors;

static void *report(void *unused)
{
    errors++;
    fprintf(stderr, "error %d\n", errors);
    return NULL;
}

int main(void)
{
    pthread_t thread;
    pthread_create(&thread, NULL, report, NULL);
    errors++;
    pthread_join(thread, NULL);
    return errors;
}
