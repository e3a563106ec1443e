// Counted, reversed and rotated bits, shifts and 128-bit products.
#include <stdint.h>

static uint32_t rotated(uint32_t x, unsigned by) { return x << (by & 31) | x >> (-by & 31); }

static uint64_t high(uint64_t a, uint64_t b) { return (uint64_t)((unsigned __int128)a * b >> 64); }

int main(int count, char **arguments) {
    uint32_t x = 0x12345678 + (uint32_t)count + (arguments[count] != 0), sum = 0;
    for (unsigned i = 0; i < 40; i++) {
        x = rotated(x, i) * 2654435761u + i;
        sum += (uint32_t)__builtin_popcount(x) + (uint32_t)__builtin_clz(x | 1) * 3 + (uint32_t)__builtin_ctz(x | 0x8000);
        sum ^= __builtin_bswap32(x) >> 24;
        sum += (int32_t)x < 0 ? (uint32_t)((int32_t)x >> 28) : 1;
        sum += (uint32_t)high((uint64_t)x << 32 | sum, 0x9E3779B97F4A7C15u);
    }
    return (int)(sum & 255);
}
