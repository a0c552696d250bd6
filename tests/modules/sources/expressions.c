/* Recursion, switches and a function of many arguments: sums of small expression trees, a thread for each side. */
#include <pthread.h>
#include <stdio.h>
#include <stdlib.h>

enum kind { NUMBER, SUM, PRODUCT, QUOTIENT, NEGATED };

struct tree {
    enum kind kind;
    int number;
    struct tree *left, *right;
};

static struct tree leaves[4] = {{NUMBER, 7}, {NUMBER, -3}, {NUMBER, 100}, {NUMBER, 9}};
static struct tree product = {PRODUCT, 0, &leaves[0], &leaves[1]};
static struct tree quotient = {QUOTIENT, 0, &leaves[2], &leaves[3]};
static struct tree negated = {NEGATED, 0, &quotient, NULL};
static struct tree root = {SUM, 0, &product, &negated};
static int nodes;

static int value(const struct tree *tree)
{
    nodes++;
    switch (tree->kind) {
    case NUMBER:
        return tree->number;
    case SUM:
        return value(tree->left) + value(tree->right);
    case PRODUCT:
        return value(tree->left) * value(tree->right);
    case QUOTIENT:
        return value(tree->left) / value(tree->right);
    case NEGATED:
        return -value(tree->left);
    default:
        abort();
    }
}

static unsigned fibonacci(unsigned n)
{
    return n < 2 ? n : fibonacci(n - 1) + fibonacci(n - 2);
}

static long weigh(char a, short b, int c, long d, unsigned char e, unsigned short f, unsigned g, long *h, int last)
{
    return a + 2 * b + 3 * c + 4 * d + 5 * e + 6 * f + 7 * (long)g + 8 * *h + (last ? 1 : -1);
}

static const char *name_of(long code)
{
    switch (code) {
    case -1:
        return "below";
    case 0:
    case 1:
        return "small";
    case 4000000000:
        return "large";
    }
    return "other";
}

static void *evaluate(void *tree)
{
    return (void *)(long)value(tree);
}

int main(void)
{
    pthread_t left, right;
    void *of_left, *of_right;
    long eight = 8;

    pthread_create(&left, NULL, evaluate, root.left);
    pthread_create(&right, NULL, evaluate, root.right);
    pthread_join(left, &of_left);
    pthread_join(right, &of_right);
    printf("%ld %ld %d\n", (long)of_left, (long)of_right, value(&root));
    printf("%u %ld\n", fibonacci(8), weigh('a', -2, 3, -4, 250, 60000, 4000000000u, &eight, 0));
    printf("%s %s %s\n", name_of(-1), name_of(1), name_of(4000000000));
    return 0;
}
