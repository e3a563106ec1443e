// Sums, differences and products that tell whether they fit, at 8 to 64 bits, and ones that stop at the bound.
#include <stdio.h>
#include <stdint.h>
#include <limits.h>

static int32_t within(int32_t a, int32_t b) {
    int32_t sum;
    if (__builtin_add_overflow(a, b, &sum)) return a < 0 ? INT_MIN : INT_MAX;
    return sum;
}

static uint8_t lit(uint8_t a, uint8_t b) {
    uint8_t sum;
    return __builtin_add_overflow(a, b, &sum) ? 255 : sum;
}

static uint16_t dimmed(uint16_t a, uint16_t b) { return a > b ? (uint16_t)(a - b) : 0; }

int main(void) {
    int fits = 0;
    long product, start = 1;
    int8_t small;
    unsigned long rest;
    for (long by = 3; !__builtin_mul_overflow(start, by, &product); by += 2, fits++) start = product;
    printf("%d %ld\n", fits, start);
    for (int a = -128; a < 128; a += 17)
        for (int b = -128; b < 128; b += 15) fits += !__builtin_sub_overflow((int8_t)a, (int8_t)b, &small);
    printf("%d %d\n", fits, small);
    printf("%d %lu\n", __builtin_sub_overflow(5ul, 7ul, &rest), rest);
    int32_t sum = 2000000000;
    for (int i = 0; i < 5; i++) sum = within(sum, 100000000);
    uint8_t light = 3;
    for (int i = 0; i < 9; i++) light = lit(light, light);
    uint16_t left = 1000;
    for (int i = 0; i < 9; i++) left = dimmed(left, (uint16_t)(i * 40));
    printf("%d %d %u %u\n", sum, within(-2000000000, -2000000000), light, left);
    return fits & 255;
}
