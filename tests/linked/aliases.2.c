int level = 1;
extern int degree __attribute__((alias("level")));
static int doubled(int n) { return 2 * n; }
int twice(int n) __attribute__((alias("doubled")));
int tripled(int n) { return 3 * n; }
int thrice(int n) __attribute__((alias("tripled")));
int read_level(void) { return level * 10 + degree; }
