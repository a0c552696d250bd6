/* Lines of text that two threads write into one buffer under a lock. */
#include <pthread.h>
#include <stdio.h>
#include <string.h>

#define ROOM 48

static char page[ROOM];
static size_t used;
static pthread_mutex_t page_lock = PTHREAD_MUTEX_INITIALIZER;
static const char *const greetings[] = {"good morning", "good night", "a \"quoted\" \\ word"};

static int append(const char *text)
{
    size_t length = strlen(text);
    int fits;
    pthread_mutex_lock(&page_lock);
    fits = used + length + 1 < ROOM;
    if (fits) {
        memcpy(page + used, text, length);
        used += length;
        page[used++] = ';';
    }
    pthread_mutex_unlock(&page_lock);
    return fits;
}

static void *greet(void *which)
{
    const char *const *greeting = which;
    return append(*greeting) ? NULL : which;
}

int main(void)
{
    pthread_t threads[3];
    char title[8] = "page";
    int missing = 0;

    memset(page, '.', ROOM - 1);
    for (int i = 0; i < 3; i++) {
        pthread_create(&threads[i], NULL, greet, (void *)&greetings[i]);
    }
    for (int i = 0; i < 3; i++) {
        void *left;
        pthread_join(threads[i], &left);
        missing += left != NULL;
    }
    memmove(title + 2, title, 5);
    printf("%s: %zu bytes, %d missing, 100%%\n", title, used, missing);
    puts(page);
    return 0;
}
