#include <stdlib.h>
struct list { long value; struct list *rest; };
struct list *counted(long n) {
    struct list *list = 0;
    while (n > 0) {
        struct list *more = malloc(sizeof *more);
        more->value = n--;
        more->rest = list;
        list = more;
    }
    return list;
}
