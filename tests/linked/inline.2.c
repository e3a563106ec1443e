inline int square(int n) { return n * n; }
extern int square(int n);
int sum_of_squares(int n) { return n == 0 ? 0 : square(n) + sum_of_squares(n - 1); }
