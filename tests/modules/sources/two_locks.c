/* Transfers between two accounts that take the locks in the order of their arguments: two of them may wait for ever. */
#include <assert.h>
#include <pthread.h>
#include <stdio.h>

struct account {
    pthread_mutex_t lock;
    long balance;
};

struct transfer {
    struct account *from, *to;
    long amount;
};

static struct account savings = {PTHREAD_MUTEX_INITIALIZER, 100};
static struct account current = {PTHREAD_MUTEX_INITIALIZER, 50};

static void *move(void *argument)
{
    struct transfer *transfer = argument;
    pthread_mutex_lock(&transfer->from->lock);
    pthread_mutex_lock(&transfer->to->lock);
    if (transfer->from->balance >= transfer->amount) {
        transfer->from->balance -= transfer->amount;
        transfer->to->balance += transfer->amount;
    }
    pthread_mutex_unlock(&transfer->to->lock);
    pthread_mutex_unlock(&transfer->from->lock);
    return NULL;
}

int main(void)
{
    pthread_t threads[2];
    struct transfer transfers[2] = {{&savings, &current, 30}, {&current, &savings, 20}};
    for (int i = 0; i < 2; i++) {
        pthread_create(threads + i, NULL, move, transfers + i);
    }
    for (int i = 0; i < 2; i++) {
        pthread_join(threads[i], NULL);
    }
    assert(savings.balance + current.balance == 150);
    printf("%ld %ld\n", savings.balance, current.balance);
    return 0;
}
