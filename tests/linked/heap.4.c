#include <stdlib.h>
struct list { long value; struct list *rest; };
long dropped(struct list *list) {
    long sum = 0;
    while (list) {
        struct list *rest = list->rest;
        sum += list->value;
        free(list);
        list = rest;
    }
    return sum;
}
