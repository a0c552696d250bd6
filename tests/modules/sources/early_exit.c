/* A watchdog thread that ends the process while a worker counts, so what is printed depends on the order. */
#include <assert.h>
#include <pthread.h>
#include <stdio.h>
#include <stdlib.h>
#include <unistd.h>

static int progress;
static pthread_t watcher;

static void *watch(void *limit)
{
    while (progress < *(int *)limit) {
        sleep(1);
    }
    printf("limit %d\n", *(int *)limit);
    exit(3);
}

static void *work(void *unused)
{
    assert(pthread_self() != watcher);
    for (int i = 0; i < 5; i++) {
        progress += i % 2 ? 2 : 1;
    }
    pthread_exit(&progress);
}

int main(void)
{
    static int limit = 6;
    pthread_t worker;
    void *last;

    if (pthread_create(&watcher, NULL, watch, &limit)) {
        return EXIT_FAILURE;
    }
    if (pthread_create(&worker, NULL, work, NULL)) {
        return EXIT_FAILURE;
    }
    pthread_join(worker, &last);
    printf("progress %d\n", *(int *)last);
    return EXIT_SUCCESS;
}
