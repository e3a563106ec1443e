// Numbers of 128 bits, handed from part to part.
#include <stdio.h>
typedef unsigned __int128 wide;
wide power(wide base, unsigned n);
unsigned digits(wide n);
extern const wide limit;
int main(void) {
    wide n = power(7, 45) + limit;
    printf("%llu %llu %u\n", (unsigned long long)(n >> 64), (unsigned long long)n, digits(n));
    return (int)(n % 251);
}
