// Functions of two parts that call each other.
int putchar(int byte);
int half(int n);
int steps(int n) { return n == 1 ? 0 : 1 + (n % 2 ? steps(3 * n + 1) : half(n)); }
int main(void) {
    for (int n = 1; n < 10; n++) putchar('0' + steps(n));
    putchar('\n');
    return steps(27);
}
