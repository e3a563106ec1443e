// Names that may be nowhere: one is there and one is not, a variable and a function of each kind.
#include <stdio.h>
extern int here __attribute__((weak));
extern int nowhere __attribute__((weak));
int present(int n) __attribute__((weak));
int absent(int n) __attribute__((weak));
int *where(void);
int main(void) {
    printf("%d %d %d %d\n", &here != 0, &nowhere != 0, present != 0, absent != 0);
    return (&here ? here : 1) + (&nowhere ? nowhere : 2) + (present ? present(30) : 4) + (absent ? absent(50) : 8) + (where() == &here);
}
