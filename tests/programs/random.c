// Generators of numbers, and how even they are.
#include <stdio.h>
#include <stdint.h>

typedef struct { uint64_t state[2]; } Xoroshiro;

static uint64_t split(uint64_t *state) {
    uint64_t z = *state += 0x9E3779B97F4A7C15u;
    z = (z ^ z >> 30) * 0xBF58476D1CE4E5B9u;
    z = (z ^ z >> 27) * 0x94D049BB133111EBu;
    return z ^ z >> 31;
}

static uint64_t turned(uint64_t x, int by) { return x << by | x >> (64 - by); }

static uint64_t next(Xoroshiro *r) {
    uint64_t a = r->state[0], b = r->state[1], sum = a + b;
    b ^= a;
    r->state[0] = turned(a, 24) ^ b ^ b << 16;
    r->state[1] = turned(b, 37);
    return sum;
}

static uint32_t below(Xoroshiro *r, uint32_t bound) { return (uint32_t)((unsigned __int128)next(r) * bound >> 64); }

int main(void) {
    uint64_t seed = 1;
    Xoroshiro r = {{split(&seed), split(&seed)}};
    int faces[6] = {0}, longest = 0, run = 0, last = -1;
    for (int i = 0; i < 1200; i++) {
        int face = (int)below(&r, 6);
        faces[face]++;
        run = face == last ? run + 1 : 1;
        if (run > longest) longest = run;
        last = face;
    }
    for (int i = 0; i < 6; i++) printf("%d ", faces[i]);
    printf("%d\n%016lx\n", longest, next(&r));
    return faces[0] & 127;
}
