// Each part has a static function and a static variable of one name.
#include <stdio.h>
static int count = 100;
static int next(void) { return ++count; }
int second(void);
int third(void);
int main(void) {
    int a = next(), b = second(), c = third(), d = next(), e = second();
    printf("%d %d %d %d %d\n", a, b, c, d, e);
    return a + b + c + d + e - 300;
}
