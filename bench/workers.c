// Four workers take numbers from a ring, count those that are prime, and add up what they find.
#include <pthread.h>
#include <stdio.h>
#include <stdlib.h>

enum { WORKERS = 4, SLOTS = 16, NUMBERS = 200 };

struct ring {
    pthread_mutex_t lock;
    pthread_cond_t not_empty;
    pthread_cond_t not_full;
    int slots[SLOTS];
    unsigned taken;
    unsigned put;
    int closed;
};

struct worker {
    pthread_t thread;
    struct ring *ring;
    long sum;
    int primes;
};

static struct ring ring;
static int looks;

static void put(struct ring *ring, int number) {
    pthread_mutex_lock(&ring->lock);
    while (ring->put - ring->taken == SLOTS)
        pthread_cond_wait(&ring->not_full, &ring->lock);
    ring->slots[ring->put++ % SLOTS] = number;
    pthread_cond_signal(&ring->not_empty);
    pthread_mutex_unlock(&ring->lock);
}

static int take(struct ring *ring, int *number) {
    int found = 0;
    pthread_mutex_lock(&ring->lock);
    while (ring->put == ring->taken && !ring->closed)
        pthread_cond_wait(&ring->not_empty, &ring->lock);
    if (ring->put != ring->taken) {
        *number = ring->slots[ring->taken++ % SLOTS];
        found = 1;
        pthread_cond_signal(&ring->not_full);
    }
    pthread_mutex_unlock(&ring->lock);
    return found;
}

static int is_prime(int number) {
    if (number < 2)
        return 0;
    for (int divisor = 2; divisor * divisor <= number; divisor++) {
        looks++;
        if (number % divisor == 0)
            return 0;
    }
    return 1;
}

static void *work(void *argument) {
    struct worker *worker = argument;
    int number;
    while (take(worker->ring, &number)) {
        switch (number & 3) {
        case 0:
            break;
        case 2:
            worker->sum += number;
            break;
        default:
            worker->sum += number;
            worker->primes += is_prime(number);
        }
    }
    return NULL;
}

int main(void) {
    struct worker *workers = calloc(WORKERS, sizeof *workers);
    long sum = 0;
    int primes = 0;
    if (!workers)
        return 1;
    pthread_mutex_init(&ring.lock, NULL);
    pthread_cond_init(&ring.not_empty, NULL);
    pthread_cond_init(&ring.not_full, NULL);
    for (int i = 0; i < WORKERS; i++) {
        workers[i].ring = &ring;
        if (pthread_create(&workers[i].thread, NULL, work, &workers[i]) != 0)
            abort();
    }
    for (int number = 0; number < NUMBERS; number++)
        put(&ring, number);
    pthread_mutex_lock(&ring.lock);
    ring.closed = 1;
    pthread_cond_broadcast(&ring.not_empty);
    pthread_mutex_unlock(&ring.lock);
    for (int i = 0; i < WORKERS; i++) {
        pthread_join(workers[i].thread, NULL);
        sum += workers[i].sum;
        primes += workers[i].primes;
    }
    printf("%ld %d %d\n", sum, primes, looks);
    free(workers);
    return 0;
}
