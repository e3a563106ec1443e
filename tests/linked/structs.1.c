// Structs of one name that are not one.
#include <stdio.h>
struct item { int weight; struct item *next; };
struct pair { char a; long b; };
int weigh(void);
long spread(struct pair *pair);
int main(void) {
    struct item third = {3, 0}, second = {20, &third}, first = {100, &second};
    struct pair pair = {1, 1000};
    int sum = 0;
    for (struct item *at = &first; at; at = at->next) sum += at->weight;
    printf("%d %d %ld\n", sum, weigh(), spread(&pair));
    return sum;
}
