// A linked list of structs on the heap, reversed and summed.
#include <stdlib.h>

struct node {
    int value;
    struct node *next;
};

static struct node *push(struct node *list, int value) {
    struct node *n = malloc(sizeof *n);
    n->value = value;
    n->next = list;
    return n;
}

static struct node *reversed(struct node *list) {
    struct node *out = 0;
    while (list) {
        struct node *next = list->next;
        list->next = out;
        out = list;
        list = next;
    }
    return out;
}

int main(void) {
    struct node *list = 0;
    for (int i = 1; i <= 10; i++)
        list = push(list, i * i);
    list = reversed(list);
    int sum = 0, place = 1;
    while (list) {
        struct node *next = list->next;
        sum += place++ * list->value;
        free(list);
        list = next;
    }
    return sum % 251;
}
