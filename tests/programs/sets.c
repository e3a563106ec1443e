// Sets of numbers as bits of words: sieve by sets, union, difference, and counts.
#include <stdio.h>
#include <stdint.h>
#include <string.h>

enum { WORDS = 16, SIZE = WORDS * 64 };
typedef struct { uint64_t words[WORDS]; } Set;

static void put(Set *set, unsigned n) { set->words[n / 64] |= (uint64_t)1 << n % 64; }
static int has(const Set *set, unsigned n) { return (int)(set->words[n / 64] >> n % 64 & 1); }

static int count(const Set *set) {
    int count = 0;
    for (int i = 0; i < WORDS; i++) count += __builtin_popcountll(set->words[i]);
    return count;
}

static int next(const Set *set, int from) {
    for (int at = from / 64; at < WORDS; at++) {
        uint64_t word = set->words[at];
        if (at == from / 64) word &= ~(uint64_t)0 << from % 64;
        if (word) return at * 64 + __builtin_ctzll(word);
    }
    return SIZE;
}

static void join(Set *result, const Set *a, const Set *b, uint64_t turned) {
    for (int i = 0; i < WORDS; i++) result->words[i] = (a->words[i] ^ turned) & (b->words[i] ^ turned);
    for (int i = 0; i < WORDS; i++) result->words[i] ^= turned;
}

int main(void) {
    Set primes, squares, sums;
    memset(&primes, 0xff, sizeof primes);
    memset(&squares, 0, sizeof squares);
    sums = squares;
    primes.words[0] &= ~(uint64_t)3;
    for (unsigned n = 2; n * n < SIZE; n++)
        for (unsigned m = n * n; has(&primes, n) && m < SIZE; m += n) primes.words[m / 64] &= ~((uint64_t)1 << m % 64);
    for (unsigned n = 0; n * n < SIZE; n++) put(&squares, n * n);
    for (int a = next(&squares, 0); a < SIZE; a = next(&squares, a + 1))
        for (int b = a; a + b < SIZE; b = next(&squares, b + 1)) put(&sums, (unsigned)(a + b));
    Set both, either;
    join(&both, &primes, &sums, 0);
    join(&either, &primes, &squares, ~(uint64_t)0);
    printf("%d %d %d %d %d\n", count(&primes), count(&squares), count(&sums), count(&both), count(&either));
    for (int n = next(&both, 900); n < SIZE; n = next(&both, n + 1)) printf("%d%c", n, next(&both, n + 1) < SIZE ? ' ' : '\n');
    return count(&both);
}
