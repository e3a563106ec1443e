// A part that ends the run, out of calls from another.
int putchar(int byte);
void check(int n);
int deep(int n) { check(n); return n + deep(n + 1); }
int main(void) { putchar('>'); return deep(1); }
