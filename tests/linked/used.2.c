__attribute__((used)) static int mark = 10;
__attribute__((used)) static int scaled(int n) { return 20 * n + mark; }
int more(int n) { return scaled(n) - mark; }
