/* Outside of the module language: more than a mebibyte of globals. */
#include <pthread.h>
#include <stdio.h>

static int small[16];
static char table[1 << 20];

static void *fill(void *unused)
{
    table[1000000] = 'x';
    small[0] = 1;
    return NULL;
}

int main(void)
{
    pthread_t thread;
    pthread_create(&thread, NULL, fill, NULL);
    pthread_join(thread, NULL);
    putchar(table[1000000]);
    return small[0];
}
