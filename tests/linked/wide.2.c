typedef unsigned __int128 wide;
const wide limit = (wide)1 << 100;
wide power(wide base, unsigned n) { return n == 0 ? 1 : n % 2 ? base * power(base, n - 1) : power(base * base, n / 2); }
unsigned digits(wide n) { return n < 10 ? 1 : 1 + digits(n / 10); }
