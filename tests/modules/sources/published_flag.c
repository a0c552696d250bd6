/* A reader polls a flag and then takes a pointer; the writer sets the flag before the pointer is there. */
#include <pthread.h>
#include <sched.h>
#include <stdio.h>
#include <unistd.h>

struct settings {
    int width, height;
};

static struct settings chosen;
static struct settings *current;
static volatile int ready;

static void *publish(void *unused)
{
    chosen.width = 80;
    ready = 1;
    current = &chosen;
    chosen.height = 25;
    return NULL;
}

static void *use(void *area)
{
    int tries = 0;
    while (!ready) {
        if (++tries % 4 == 0) {
            usleep(100);
        } else {
            sched_yield();
        }
    }
    *(int *)area = current->width * current->height;
    return NULL;
}

int main(void)
{
    pthread_t writer, reader;
    int area = 0;
    pthread_create(&reader, NULL, use, &area);
    pthread_create(&writer, NULL, publish, NULL);
    pthread_join(writer, NULL);
    pthread_join(reader, NULL);
    printf("%d\n", area);
    return 0;
}
