// Names of one thing, of each kind, seen from elsewhere.
#include <stdio.h>
extern int degree;
int twice(int n);
int thrice(int n);
int read_level(void);
int main(void) {
    degree = 6;
    printf("%d %d %d\n", read_level(), twice(5), thrice(5));
    return degree + twice(degree);
}
