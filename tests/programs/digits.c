// Numbers of any length: factorials and powers of two in base 10^9, and their digits added up.
#include <stdio.h>
#include <stdint.h>
#include <stdlib.h>

enum { BASE = 1000000000 };
typedef struct { uint32_t *parts; int count, room; } Number;

static void times(Number *n, uint32_t by) {
    uint64_t carried = 0;
    for (int i = 0; i < n->count; i++) {
        carried += (uint64_t)n->parts[i] * by;
        n->parts[i] = (uint32_t)(carried % BASE);
        carried /= BASE;
    }
    if (carried && n->count < n->room) n->parts[n->count++] = (uint32_t)carried;
}

static Number one(int room) {
    Number n = {malloc(sizeof(uint32_t) * (unsigned long)room), 1, room};
    if (!n.parts) exit(2);
    n.parts[0] = 1;
    return n;
}

static int digit_sum(const Number *n) {
    int sum = 0;
    for (int i = 0; i < n->count; i++) for (uint32_t part = n->parts[i]; part; part /= 10) sum += (int)(part % 10);
    return sum;
}

static void print(const Number *n) {
    printf("%u", n->parts[n->count - 1]);
    for (int i = n->count - 1; i-- > 0;) printf("%09u", n->parts[i]);
    putchar('\n');
}

int main(void) {
    Number factorial = one(20), power = one(40);
    for (uint32_t i = 2; i <= 70; i++) times(&factorial, i);
    for (int i = 0; i < 100; i++) times(&power, 8);
    print(&factorial);
    print(&power);
    int sum = digit_sum(&factorial), more = digit_sum(&power);
    printf("%d %d\n", sum, more);
    free(factorial.parts);
    free(power.parts);
    return (sum + more) & 255;
}
