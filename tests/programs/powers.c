// Powers modulo a number, a test of primes, greatest divisors.
#include <stdio.h>
#include <stdint.h>

static uint64_t product(uint64_t a, uint64_t b, uint64_t m) { return (uint64_t)((unsigned __int128)a * b % m); }

static uint64_t power(uint64_t base, uint64_t exponent, uint64_t m) {
    uint64_t result = 1;
    for (base %= m; exponent; exponent >>= 1) {
        if (exponent & 1) result = product(result, base, m);
        base = product(base, base, m);
    }
    return result;
}

static int is_prime(uint64_t n) {
    static const uint64_t bases[] = {2, 3, 5, 7, 11, 13, 17, 19, 23, 29, 31, 37};
    if (n < 2) return 0;
    for (int i = 0; i < 12; i++) if (n % bases[i] == 0) return n == bases[i];
    uint64_t odd = n - 1;
    int twos = 0;
    for (; !(odd & 1); odd >>= 1) twos++;
    for (int i = 0; i < 12; i++) {
        uint64_t x = power(bases[i], odd, n);
        int fails = x != 1 && x != n - 1;
        for (int k = 1; fails && k < twos; k++) { x = product(x, x, n); fails = x != n - 1; }
        if (fails) return 0;
    }
    return 1;
}

static int64_t divisor(int64_t a, int64_t b, int64_t *x, int64_t *y) {
    if (b == 0) { *x = a < 0 ? -1 : 1; *y = 0; return a < 0 ? -a : a; }
    int64_t inner_x, inner_y, d = divisor(b, a % b, &inner_x, &inner_y);
    *x = inner_y;
    *y = inner_x - a / b * inner_y;
    return d;
}

int main(void) {
    uint64_t found = 0, n = 1000000000000000000u;
    while (found < 3) if (is_prime(++n)) { found++; printf("%lu\n", n); }
    int64_t x, y, d = divisor(-123456789012, 987654321, &x, &y);
    printf("%ld %ld %ld %lu\n", d, x, y, power(7, 560, 561));
    return is_prime(4759123141u) * 2 + (d == (int64_t)((__int128)x * -123456789012 + (__int128)y * 987654321));
}
