// Names that are seen within the program alone, and names that only one part has.
#include <stdio.h>
__attribute__((visibility("hidden"))) int inner(int n);
__attribute__((visibility("protected"))) int guarded = 5;
extern int shown;
int main(void) {
    printf("%d %d %d\n", inner(3), guarded, shown);
    return inner(guarded);
}
