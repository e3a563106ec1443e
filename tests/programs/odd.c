// Integers of odd widths: 3, 17, 37 and 100 bits, with signs and without.
#include <stdio.h>

typedef unsigned _BitInt(3) Three;
typedef _BitInt(17) Seventeen;
typedef unsigned _BitInt(37) Wide;
typedef _BitInt(100) Wider;
typedef struct { Three three; Seventeen seventeen; Wide wide; Wider wider; } All;

static void step(All *a) {
    a->three += 5;
    a->seventeen = (Seventeen)(a->seventeen * 3 % 60000 - a->three);
    a->wide = a->wide * 6364136223u + (Wide)a->three;
    a->wider = a->wider * -3 / 2 + a->seventeen;
}

int main(void) {
    All a = {1, -1, 1, 7};
    for (int i = 0; i < 60; i++) step(&a);
    printf("%u %d %lu\n", (unsigned)a.three, (int)a.seventeen, (unsigned long)a.wide);
    printf("%ld %lu\n", (long)(a.wider >> 50), (unsigned long)a.wider & 0xffffffff);
    Wide turned = a.wide << 5 | a.wide >> 32;
    printf("%lx %d\n", (unsigned long)turned, a.seventeen < (Seventeen)a.three);
    return (int)(a.wide % 199);
}
