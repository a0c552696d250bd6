/* Nested structs, arrays of structs, a packed struct and a union, read by a thread while main changes them. */
#include <pthread.h>
#include <stdio.h>

struct point {
    short x, y;
};

struct shape {
    char kind;
    struct point corners[3];
    const char *name;
    struct shape *next;
};

struct __attribute__((packed)) header {
    unsigned char version;
    unsigned int length;
    unsigned long stamp;
};

union word {
    unsigned int whole;
    unsigned char bytes[4];
    struct point point;
};

static struct shape shapes[2] = {
    {'t', {{0, 0}, {4, 0}, {0, 3}}, "triangle", &shapes[1]},
    {'l', {{1, 1}, {5, -5}}, "line", NULL},
};
static const short scales[2][3] = {{1, 2, 3}, {-1, -2, -3}};
static struct header header = {1, sizeof(struct header), 0x1122334455667788};
static short *corner = &shapes[0].corners[1].x;
static union word word;

static void *measure(void *argument)
{
    struct shape *shape = argument;
    long sum = 0;
    for (; shape != NULL; shape = shape->next) {
        for (int i = 0; i < 3; i++) {
            sum += shape->corners[i].x * scales[0][i] - shape->corners[i].y * scales[1][i];
        }
        word.point = shape->corners[1];
    }
    header.stamp += 1;
    return (void *)sum;
}

int main(void)
{
    pthread_t thread;
    void *sum;
    struct shape copy = shapes[0];

    pthread_create(&thread, NULL, measure, &copy);
    *corner = 40;
    pthread_join(thread, &sum);
    printf("%ld %s %c\n", (long)sum, copy.next->name, copy.kind);
    printf("%u %x %lx\n", header.length, word.whole, header.stamp);
    word.bytes[3] = header.version;
    printf("%x %d\n", word.whole, word.point.y);
    return 0;
}
