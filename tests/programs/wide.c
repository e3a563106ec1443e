// Sums, products and quotients of 128 bits, printed in decimal.
#include <stdio.h>

typedef unsigned __int128 Wide;
typedef __int128 Signed;

static void print(Wide n) {
    char digits[40];
    int at = 40;
    do digits[--at] = (char)('0' + (int)(n % 10)); while ((n /= 10) != 0);
    for (; at < 40; at++) putchar(digits[at]);
    putchar('\n');
}

static Wide power(Wide base, unsigned exponent) {
    Wide result = 1;
    for (; exponent; exponent >>= 1, base *= base) if (exponent & 1) result *= base;
    return result;
}

int main(void) {
    Wide factorial = 1, a = 0, b = 1;
    for (unsigned i = 2; i <= 33; i++) factorial *= i;
    print(factorial);
    for (int i = 0; i < 180; i++) { Wide sum = a + b; a = b; b = sum; }
    print(a);
    print(power(3, 80));
    print(~(Wide)0);
    Signed small = -(Signed)power(10, 30) / 7, rest = -(Signed)power(10, 30) % 7;
    print((Wide)-small);
    printf("%d %d %d\n", (int)rest, (int)(small >> 100), small < rest);
    return (int)((factorial >> 64) % 200) + (a > b);
}
