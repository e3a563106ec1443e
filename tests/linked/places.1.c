// Pointers to what is on the stack, handed on to another part.
#include <stdio.h>
struct box { int low, high; };
void widen(struct box *box, int by);
void sort(int *from, int *to);
int area(struct box box);
int main(void) {
    struct box box = {3, 5};
    int numbers[] = {9, 4, 7, 1, 8, 2, 6, 3, 5};
    widen(&box, 2);
    sort(numbers, numbers + 9);
    for (int i = 0; i < 9; i++) printf("%d", numbers[i]);
    printf(" %d %d %d\n", box.low, box.high, area(box));
    return area(box);
}
