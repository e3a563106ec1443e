// Tentative definitions: the largest and the widest counts, or the one that has a value.
#include <stdio.h>
int shared;
char room;
int given;
void put(void);
long sum(void);
int main(void) {
    put();
    printf("%d %d %ld\n", shared, given, sum());
    return (int)sum() % 200;
}
