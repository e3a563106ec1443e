// Variables of three parts that hold the addresses of one another, and of functions.
#include <stdio.h>
struct node { struct node *const *to; int (*weigh)(int); int value; };
extern struct node a, b, c;
extern struct node *const from_b[];
static int plus(int n) { return n + 1; }
struct node *const from_a[] = {&b, &c, 0};
struct node a = {from_a, plus, 1};
int walk(struct node *at, int left) {
    int sum = at->weigh(at->value);
    if (left) for (struct node *const *to = at->to; *to; to++) sum += walk(*to, left - 1);
    return sum;
}
int main(void) {
    printf("%d %d\n", walk(&a, 3), from_b[0] == &c);
    return walk(&a, 4) % 256;
}
