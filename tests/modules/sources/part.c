/* A part of a program: it has no main. */
#include <pthread.h>

static pthread_mutex_t lock = PTHREAD_MUTEX_INITIALIZER;
static unsigned long next;

unsigned long take_number(void)
{
    unsigned long number;
    pthread_mutex_lock(&lock);
    number = next++;
    pthread_mutex_unlock(&lock);
    return number;
}
