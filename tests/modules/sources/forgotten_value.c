/* Outside of the module language once its variables are registers: a value that nobody set. */
#include <pthread.h>
#include <stdio.h>

static int flag;

static void *raise_flag(void *unused)
{
    flag = 1;
    return NULL;
}

int main(void)
{
    pthread_t thread;
    int answer;
    pthread_create(&thread, NULL, raise_flag, NULL);
    for (int i = 0; i < flag; i++) {
        answer = 42 + i;
    }
    pthread_join(thread, NULL);
    printf("%d\n", answer);
    return 0;
}
