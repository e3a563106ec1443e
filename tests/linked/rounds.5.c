int one(int n);
int putchar(int byte);
int four(int n) { putchar('4'); return n <= 0 ? 4 : one(n - 4) + 4; }
