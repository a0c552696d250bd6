/* A waiter that tests no predicate: where the signal comes first, it sleeps for ever. */
#include <pthread.h>
#include <stdio.h>

static pthread_mutex_t lock;
static pthread_cond_t ready;
static int value;

static void *wait_for_value(void *unused)
{
    pthread_mutex_lock(&lock);
    pthread_cond_wait(&ready, &lock);
    printf("value %d\n", value);
    pthread_mutex_unlock(&lock);
    return NULL;
}

static void *set_value(void *unused)
{
    value = 5;
    pthread_mutex_lock(&lock);
    pthread_cond_signal(&ready);
    pthread_mutex_unlock(&lock);
    pthread_exit(NULL);
}

int main(void)
{
    pthread_t waiter, setter;
    pthread_mutex_init(&lock, NULL);
    pthread_cond_init(&ready, NULL);
    pthread_create(&waiter, NULL, wait_for_value, NULL);
    pthread_create(&setter, NULL, set_value, NULL);
    pthread_join(waiter, NULL);
    pthread_join(setter, NULL);
    pthread_cond_destroy(&ready);
    pthread_mutex_destroy(&lock);
    return 0;
}
