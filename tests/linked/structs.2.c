struct item { long weight; char label[3]; };
struct pair { char a; long b; };
static struct item items[] = {{1, "ab"}, {2, "cd"}, {4, "ef"}};
int weigh(void) {
    int sum = 0;
    for (int i = 0; i < 3; i++) sum += (int)items[i].weight * items[i].label[1];
    return sum;
}
long spread(struct pair *pair) { return pair->b - pair->a + (long)sizeof(struct item); }
