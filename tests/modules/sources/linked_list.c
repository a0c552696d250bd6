/* A sorted list on the heap to which threads add under a lock, and from which main frees every link. */
#include <pthread.h>
#include <stdio.h>
#include <stdlib.h>

struct link {
    struct link *next;
    int key;
};

struct list {
    struct link *first;
    unsigned length;
    pthread_mutex_t lock;
};

static int insert(struct list *list, int key)
{
    struct link *link = malloc(sizeof *link);
    struct link **place = &list->first;
    if (link == NULL) {
        return -1;
    }
    link->key = key;
    pthread_mutex_lock(&list->lock);
    while (*place != NULL && (*place)->key < key) {
        place = &(*place)->next;
    }
    link->next = *place;
    *place = link;
    list->length++;
    pthread_mutex_unlock(&list->lock);
    return 0;
}

static void *insert_odd(void *list)
{
    for (int key = 1; key < 8; key += 2) {
        insert(list, key);
    }
    return NULL;
}

static void *insert_even(void *list)
{
    for (int key = 6; key >= 0; key -= 2) {
        insert(list, key);
    }
    return NULL;
}

int main(void)
{
    struct list *list = calloc(1, sizeof *list);
    pthread_t odd, even;
    int rising = 1, before = -1;

    pthread_create(&odd, NULL, insert_odd, list);
    pthread_create(&even, NULL, insert_even, list);
    pthread_join(odd, NULL);
    pthread_join(even, NULL);
    printf("%u:", list->length);
    while (list->first != NULL) {
        struct link *link = list->first;
        list->first = link->next;
        printf(" %d", link->key);
        rising = rising && before < link->key;
        before = link->key;
        free(link);
    }
    putchar('\n');
    free(list);
    return rising ? EXIT_SUCCESS : EXIT_FAILURE;
}
