// A weak function gives way to a strong one, whichever comes first; the variables too.
#include <stdio.h>
__attribute__((weak)) int level = 1;
__attribute__((weak)) int early(void) { return 1; }
int late(void) { return 20; }
int from_second(void);
int main(void) {
    printf("%d %d %d %d\n", level, early(), late(), from_second());
    return level + early() + late();
}
