/* A queue and a tree of nodes from a pool that begins as zeros. */
#include "put.h"

struct node { struct node *left, *right; unsigned long key; };

static struct node pool[64];
static unsigned long used;
static struct node *root;

static struct node *fresh(unsigned long key)
{
    struct node *node = &pool[used++];

    node->key = key;
    return node;
}

static void insert(unsigned long key)
{
    struct node **at = &root;

    while (*at)
        at = key < (*at)->key ? &(*at)->left : &(*at)->right;
    *at = fresh(key);
}

static void walk(const struct node *node)
{
    if (!node)
        return;
    walk(node->left);
    put_number(node->key);
    put(' ');
    walk(node->right);
}

int main(void)
{
    struct node *queue[64];
    unsigned long first = 0, last = 0, n = 1;

    for (int i = 0; i < 20; i++, n = n * 37 % 101)
        insert(n);
    walk(root);
    put('\n');
    queue[last++] = root; /* by levels */
    while (first < last) {
        struct node *node = queue[first++];

        put_number(node->key);
        put(' ');
        if (node->left)
            queue[last++] = node->left;
        if (node->right)
            queue[last++] = node->right;
    }
    put('\n');
    return 0;
}
