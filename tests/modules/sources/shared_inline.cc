// Outside of the module language: C++, whose inline functions are in groups of their own.
#include <pthread.h>
#include <stdio.h>

static int sum;

inline void add(int number)
{
    sum += number;
}

static void *add_three(void *)
{
    add(3);
    return nullptr;
}

int main()
{
    pthread_t thread;
    pthread_create(&thread, nullptr, add_three, nullptr);
    add(4);
    pthread_join(thread, nullptr);
    printf("%d\n", sum);
    return 0;
}
