// A heap in an array from malloc: sorting, and the three least of a stream.
#include <stdio.h>
#include <stdlib.h>

static void sift(int *heap, int at, int count) {
    for (int child; (child = 2 * at + 1) < count; at = child) {
        if (child + 1 < count && heap[child + 1] > heap[child]) child++;
        if (heap[at] >= heap[child]) return;
        int kept = heap[at];
        heap[at] = heap[child];
        heap[child] = kept;
    }
}

static void sort(int *heap, int count) {
    for (int at = count / 2; at-- > 0;) sift(heap, at, count);
    for (int last = count - 1; last > 0; last--) {
        int kept = heap[0];
        heap[0] = heap[last];
        heap[last] = kept;
        sift(heap, 0, last);
    }
}

int main(void) {
    int count = 200;
    int *numbers = malloc(sizeof(int) * (unsigned long)count);
    if (!numbers) return 1;
    unsigned seed = 12345;
    for (int i = 0; i < count; i++) {
        seed = seed * 1103515245u + 12345u;
        numbers[i] = (int)(seed >> 16 & 0x7fff) - 16384;
    }
    sort(numbers, count);
    int ordered = 1;
    for (int i = 1; i < count; i++) ordered &= numbers[i - 1] <= numbers[i];
    printf("%d %d %d %d %d\n", ordered, numbers[0], numbers[1], numbers[count / 2], numbers[count - 1]);
    int status = numbers[count / 3] & 127;
    free(numbers);
    return status;
}
