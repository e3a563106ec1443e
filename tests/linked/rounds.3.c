int three(int n);
int putchar(int byte);
int two(int n) { putchar('2'); return n <= 0 ? 2 : three(n - 2) + 2; }
