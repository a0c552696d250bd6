/* A field of an element of a global array of structs, whose address is a constant that some compilers nest. */
#include <pthread.h>
#include <stdio.h>

struct account {
    pthread_mutex_t lock;
    long balance;
};

static struct account accounts[2] = {{PTHREAD_MUTEX_INITIALIZER, 100}, {PTHREAD_MUTEX_INITIALIZER, 50}};

static void *pay(void *unused)
{
    pthread_mutex_lock(&accounts[1].lock);
    accounts[1].balance += 5;
    pthread_mutex_unlock(&accounts[1].lock);
    return NULL;
}

int main(void)
{
    pthread_t thread;
    pthread_create(&thread, NULL, pay, NULL);
    accounts[1].balance -= 20;
    pthread_join(thread, NULL);
    printf("%ld %ld\n", accounts[0].balance, accounts[1].balance);
    return 0;
}
