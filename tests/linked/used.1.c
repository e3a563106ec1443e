// Names that are kept though nothing need call them: a list that each part adds to, of names that each has for itself.
#include <stdio.h>
__attribute__((used)) static int mark = 3;
__attribute__((used)) static int scaled(int n) { return 2 * n; }
int more(int n);
int main(void) {
    printf("%d %d\n", scaled(mark), more(mark));
    return more(5);
}
