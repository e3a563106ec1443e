// An inline function whose one definition is elsewhere.
#include <stdio.h>
inline int square(int n) { return n * n; }
int sum_of_squares(int n);
int main(void) {
    int (*call)(int) = square;
    printf("%d %d %d\n", square(9), call(11), sum_of_squares(4));
    return square(6);
}
