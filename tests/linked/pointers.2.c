struct node { struct node *const *to; int (*weigh)(int); int value; };
extern struct node a, c;
static int plus(int n) { return n * 2; }
struct node *const from_b[] = {&c, 0};
struct node b = {from_b, plus, 10};
