// Recursion through five parts.
int putchar(int byte);
int one(int n);
int main(void) { int r = one(40); putchar('\n'); return r; }
