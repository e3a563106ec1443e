// A list that one part makes, another turns, and a third gives back.
#include <stdio.h>
struct list { long value; struct list *rest; };
struct list *counted(long n);
struct list *turned(struct list *list);
long dropped(struct list *list);
int main(void) {
    struct list *list = turned(counted(12));
    for (struct list *at = list; at; at = at->rest) printf("%ld ", at->value);
    puts("");
    return (int)dropped(list);
}
