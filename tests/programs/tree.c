// A search tree on the heap: put, found, walked, cut down.
#include <stdio.h>
#include <stdlib.h>

typedef struct Node { struct Node *left, *right; int key, count; } Node;

static Node *put(Node *tree, int key) {
    if (!tree) {
        Node *node = malloc(sizeof(Node));
        if (!node) abort();
        *node = (Node){NULL, NULL, key, 1};
        return node;
    }
    if (key == tree->key) tree->count++;
    else if (key < tree->key) tree->left = put(tree->left, key);
    else tree->right = put(tree->right, key);
    return tree;
}

static int depth(const Node *tree) {
    if (!tree) return 0;
    int left = depth(tree->left), right = depth(tree->right);
    return 1 + (left > right ? left : right);
}

static void walk(const Node *tree, void (*visit)(const Node *, void *), void *with) {
    if (!tree) return;
    walk(tree->left, visit, with);
    visit(tree, with);
    walk(tree->right, visit, with);
}

static void show(const Node *node, void *with) {
    int *last = with;
    if (node->key - *last > 40) printf("%d x%d\n", node->key, node->count);
    *last = node->key;
}

static void cut(Node *tree) {
    if (!tree) return;
    cut(tree->left);
    cut(tree->right);
    free(tree);
}

int main(void) {
    Node *tree = NULL;
    unsigned key = 1;
    for (int i = 0; i < 150; i++) tree = put(tree, (int)((key = key * 75 % 65537) % 2000));
    int last = -1000, found = depth(tree);
    walk(tree, show, &last);
    cut(tree);
    return found;
}
