// Quicksort over bytes of any element, with a function that compares and memcpy to swap.
#include <stdio.h>
#include <string.h>

typedef int (*Compare)(const void *, const void *);
typedef struct { short key; char tag; long value; } Row;

static void swap(char *a, char *b, unsigned long size) {
    char kept[32];
    memcpy(kept, a, size);
    memcpy(a, b, size);
    memcpy(b, kept, size);
}

static void sort(char *base, long count, unsigned long size, Compare compare) {
    while (count > 1) {
        long low = 0;
        swap(base, base + (unsigned long)(count / 2) * size, size);
        for (long i = 1; i < count; i++)
            if (compare(base + (unsigned long)i * size, base) < 0) swap(base + (unsigned long)++low * size, base + (unsigned long)i * size, size);
        swap(base, base + (unsigned long)low * size, size);
        sort(base, low, size, compare);
        base += (unsigned long)(low + 1) * size;
        count -= low + 1;
    }
}

static int by_key(const void *a, const void *b) { return ((const Row *)a)->key - ((const Row *)b)->key; }
static int by_value(const void *a, const void *b) {
    long x = ((const Row *)a)->value, y = ((const Row *)b)->value;
    return (x > y) - (x < y);
}

int main(void) {
    Row rows[24];
    for (int i = 0; i < 24; i++) rows[i] = (Row){(short)(i * 37 % 24 - 12), (char)('a' + i), (long)i * i * 7919 % 101 - 50};
    Compare orders[2] = {by_key, by_value};
    unsigned long sum = 0;
    for (int pass = 0; pass < 2; pass++) {
        sort((char *)rows, 24, sizeof(Row), orders[pass]);
        for (int i = 0; i < 24; i++) {
            putchar(rows[i].tag);
            sum = sum * 31 + (unsigned long)rows[i].value;
        }
        putchar('\n');
    }
    return (int)(sum % 251);
}
