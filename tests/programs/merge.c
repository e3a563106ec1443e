// Merge sort from below, between two arrays.
#include <stdio.h>
#include <string.h>
#include <stdint.h>

enum { COUNT = 300 };
static uint64_t first[COUNT], second[COUNT];

static int merge_runs(uint64_t *from, uint64_t *to, int width) {
    int moves = 0;
    for (int start = 0; start < COUNT; start += 2 * width) {
        int middle = start + width < COUNT ? start + width : COUNT;
        int end = start + 2 * width < COUNT ? start + 2 * width : COUNT;
        int left = start, right = middle;
        for (int at = start; at < end; at++) {
            if (left < middle && (right >= end || from[left] <= from[right])) to[at] = from[left++];
            else { to[at] = from[right++]; moves += left < middle; }
        }
    }
    return moves;
}

int main(void) {
    uint64_t state = 88172645463325252u;
    for (int i = 0; i < COUNT; i++) {
        state ^= state << 13;
        state ^= state >> 7;
        state ^= state << 17;
        first[i] = state;
    }
    int moves = 0;
    for (int width = 1; width < COUNT; width *= 2) {
        moves += merge_runs(first, second, width);
        memcpy(first, second, sizeof first);
    }
    for (int i = 1; i < COUNT; i++) if (first[i - 1] > first[i]) return 255;
    printf("%llu %llu %d\n", (unsigned long long)first[0], (unsigned long long)first[COUNT - 1], moves);
    return moves & 127;
}
