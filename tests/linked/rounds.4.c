int four(int n);
int three(int n) { return n <= 0 ? 3 : four(n - 3) + 3; }
