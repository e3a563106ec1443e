extern int turns;
int grow(int n) { turns += 2; return (n > 300 ? 2 : 1) << 10 | (n * 3 % 1000); }
