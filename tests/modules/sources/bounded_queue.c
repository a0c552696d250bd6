/* A queue of four places between two producers and one consumer, with a lock and two conditions. */
#include <pthread.h>
#include <stdbool.h>
#include <stdio.h>

#define PLACES 4u
#define ITEMS 6

struct queue {
    int items[PLACES];
    unsigned head, count;
    bool closed;
    pthread_mutex_t lock;
    pthread_cond_t not_empty, not_full;
};

static struct queue queue = {
    .lock = PTHREAD_MUTEX_INITIALIZER,
    .not_empty = PTHREAD_COND_INITIALIZER,
    .not_full = PTHREAD_COND_INITIALIZER,
};

static void put(struct queue *q, int item)
{
    pthread_mutex_lock(&q->lock);
    while (q->count == PLACES) {
        pthread_cond_wait(&q->not_full, &q->lock);
    }
    q->items[(q->head + q->count) % PLACES] = item;
    q->count++;
    pthread_cond_signal(&q->not_empty);
    pthread_mutex_unlock(&q->lock);
}

static bool take(struct queue *q, int *item)
{
    bool found = false;
    pthread_mutex_lock(&q->lock);
    while (q->count == 0 && !q->closed) {
        pthread_cond_wait(&q->not_empty, &q->lock);
    }
    if (q->count > 0) {
        *item = q->items[q->head];
        q->head = (q->head + 1) % PLACES;
        q->count--;
        found = true;
        pthread_cond_signal(&q->not_full);
    }
    pthread_mutex_unlock(&q->lock);
    return found;
}

static void *produce(void *argument)
{
    int base = *(int *)argument;
    for (int i = 0; i < ITEMS; i++) {
        put(&queue, base + i);
    }
    return NULL;
}

static void *consume(void *sum)
{
    int item;
    while (take(&queue, &item)) {
        *(long *)sum += item;
    }
    return sum;
}

int main(void)
{
    pthread_t producers[2], consumer;
    int bases[2] = {100, 200};
    long sum = 0;

    pthread_create(&consumer, NULL, consume, &sum);
    pthread_create(&producers[0], NULL, produce, &bases[0]);
    pthread_create(&producers[1], NULL, produce, &bases[1]);
    pthread_join(producers[0], NULL);
    pthread_join(producers[1], NULL);

    pthread_mutex_lock(&queue.lock);
    queue.closed = true;
    pthread_cond_broadcast(&queue.not_empty);
    pthread_mutex_unlock(&queue.lock);
    pthread_join(consumer, NULL);

    printf("%ld\n", sum);
    return 0;
}
