/* Two threads store to one global, and main prints what the last of them left there. */
#include <pthread.h>
#include <stdio.h>

static int letter = 64;
static pthread_t first, second;

static void *store_a(void *unused)
{
    letter = 65;
    return NULL;
}

static void *store_b(void *unused)
{
    letter = letter + 1;
    return NULL;
}

int main(void)
{
    pthread_create(&first, NULL, store_a, NULL);
    pthread_create(&second, NULL, store_b, NULL);
    pthread_join(first, NULL);
    pthread_join(second, NULL);
    putchar(letter);
    return 0;
}
