/* A counter with its lock in one struct; a thread that finds the lock taken counts that too. */
#include <pthread.h>
#include <stdio.h>

#define THREADS 4

struct counter {
    pthread_mutex_t lock;
    long value;
    int missed;
};

static struct counter total;
static pthread_mutex_t last_lock = PTHREAD_MUTEX_INITIALIZER;
static long last;

static void add(struct counter *counter, long amount)
{
    if (pthread_mutex_trylock(&counter->lock) != 0) {
        pthread_mutex_lock(&counter->lock);
        counter->missed++;
    }
    counter->value += amount;
    pthread_mutex_unlock(&counter->lock);
}

static void *work(void *argument)
{
    long amount = (long)argument;
    for (int i = 0; i < 3; i++) {
        add(&total, amount);
    }
    pthread_mutex_lock(&last_lock);
    last = amount;
    pthread_mutex_unlock(&last_lock);
    return (void *)(amount * 2);
}

int main(void)
{
    pthread_t threads[THREADS];
    long returned = 0;

    pthread_mutex_init(&total.lock, NULL);
    for (long i = 0; i < THREADS; i++) {
        pthread_create(&threads[i], NULL, work, (void *)(i + 1));
    }
    for (long i = 0; i < THREADS; i++) {
        void *result;
        pthread_join(threads[i], &result);
        returned += (long)result;
    }
    pthread_mutex_destroy(&total.lock);
    printf("%ld %ld\n", total.value, returned);
    return 0;
}
