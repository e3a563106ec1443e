struct node { struct node *const *to; int (*weigh)(int); int value; };
extern struct node a, b;
static int minus(int n) { return n - 3; }
static struct node *const out[] = {&a, &b, 0};
struct node c = {out, minus, 100};
