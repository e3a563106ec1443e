int steps(int n);
int half(int n) { return steps(n / 2); }
