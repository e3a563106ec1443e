// What fits into a bag, whole things and shares of them: least, greatest and absolute numbers.
#include <stdio.h>
#include <stdlib.h>

static long greater(long a, long b) { return a > b ? a : b; }
static long size(long a) { return a < 0 ? -a : a; }

static long whole(const int *weights, const long *values, int count, int room) {
    long *best = malloc(sizeof(long) * (unsigned long)(room + 1));
    if (!best) abort();
    for (int w = 0; w <= room; w++) best[w] = 0;
    for (int i = 0; i < count; i++)
        for (int w = room; w >= weights[i]; w--) best[w] = greater(best[w], best[w - weights[i]] + values[i]);
    long found = best[room];
    free(best);
    return found;
}

int main(void) {
    int weights[12];
    long values[12], total = 0, worst = 1L << 62, furthest = 0;
    for (int i = 0; i < 12; i++) {
        weights[i] = 3 + i * 5 % 11;
        values[i] = 10 + i * 17 % 29;
        total += values[i];
    }
    for (int room = 0; room < 60; room += 4) {
        long found = whole(weights, values, 12, room);
        long off = found * 60 - total * room;
        worst = off < worst ? off : worst;
        furthest = greater(furthest, size(off));
        printf("%ld%c", found, room % 20 == 16 ? '\n' : ' ');
    }
    printf("%ld %ld %ld\n", total, worst, furthest);
    return (int)(total & 255);
}
