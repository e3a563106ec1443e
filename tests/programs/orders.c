// All orders of five letters, one after another, how far each is from the first, and which come back to themselves.
#include <stdio.h>

static int next(char *letters, int count) {
    int at = count - 2, from = count - 1;
    while (at >= 0 && letters[at] >= letters[at + 1]) at--;
    if (at < 0) return 0;
    while (letters[from] <= letters[at]) from--;
    char kept = letters[at];
    letters[at] = letters[from];
    letters[from] = kept;
    for (int left = at + 1, right = count - 1; left < right; left++, right--) {
        kept = letters[left];
        letters[left] = letters[right];
        letters[right] = kept;
    }
    return 1;
}

static int inversions(const char *letters, int count) {
    int found = 0;
    for (int i = 0; i < count; i++) for (int j = i + 1; j < count; j++) found += letters[i] > letters[j];
    return found;
}

static int cycles(const char *letters, int count) {
    int seen = 0, found = 0;
    for (int start = 0; start < count; start++) {
        if (seen >> start & 1) continue;
        found++;
        for (int at = start; !(seen >> at & 1); at = letters[at] - 'a') seen |= 1 << at;
    }
    return found;
}

int main(void) {
    char letters[] = "abcde";
    int orders = 0, even = 0, counts[6] = {0};
    do {
        if (orders++ % 24 == 0) puts(letters);
        even += inversions(letters, 5) % 2 == 0;
        counts[cycles(letters, 5)]++;
    } while (next(letters, 5));
    for (int i = 1; i < 6; i++) printf("%d ", counts[i]);
    printf("%d of %d\n", even, orders);
    return orders + even;
}
