// The longest of the sequences of n / 2 and 3 n + 1, with what is known kept.
#include <stdio.h>
#include <stdint.h>

enum { KEPT = 4096 };
static uint16_t lengths[KEPT];

static unsigned length(uint64_t n) {
    if (n == 1) return 1;
    if (n < KEPT && lengths[n]) return lengths[n];
    unsigned found = 1 + (n % 2 ? length(3 * n + 1) : length(n / 2));
    if (n < KEPT) lengths[n] = (uint16_t)found;
    return found;
}

int main(void) {
    unsigned best = 0;
    uint64_t of = 0;
    for (uint64_t n = 1; n < 3000; n++) {
        unsigned found = length(n);
        if (found > best) best = found, of = n;
    }
    printf("%lu takes %u\n", of, best);
    return (int)best;
}
