// A table of functions from four parts, and a variable that all of them change.
#include <stdio.h>
typedef int (*state)(int);
int start(int n), grow(int n), shrink(int n);
state table[] = {start, grow, shrink, 0};
int turns;
int main(void) {
    int n = 1, at = 0;
    while (turns < 20 && table[at]) {
        int next = table[at](n);
        n = next & 1023;
        at = (next >> 10) % 3;
        printf("%d:%d ", at, n);
    }
    puts("");
    return n % 256;
}
