// A constructor, aliases, globals that point at one another, a static local and a tail call.
int putchar(int byte);

struct link {
    const struct link *other;
    int weight;
};

extern const struct link second;
const struct link first = {&second, 3};
const struct link second = {&first, 4};

int level = 1;
extern int degree __attribute__((alias("level")));

int doubled(int x) { return 2 * x; }
int twice(int x) __attribute__((alias("doubled")));

__attribute__((constructor)) static void prepare(void) {
    putchar('c');
    degree = 5;
}

static int next(void) {
    static int last = 10;
    return last += level;
}

int even(unsigned n);
int odd(unsigned n) { return n == 0 ? 0 : even(n - 1); }
int even(unsigned n) { return n == 0 ? 1 : odd(n - 1); }

int main(void) {
    const struct link *at = &first;
    int sum = 0;
    for (int i = 0; i < 5; i++) {
        sum += at->weight;
        at = at->other;
    }
    putchar('m');
    putchar('\n');
    return sum + next() + next() + twice(level) + even(20);
}
