// Leaves by exit out of a call within a call, with output before it, and never comes back.
#include <stdio.h>
#include <stdlib.h>

static int depth;

static void deeper(int left, void (*last)(int)) {
    depth++;
    if (left == 0) last(depth);
    else deeper(left - 1, last);
    puts("not here");
}

static void leave(int with) {
    printf("leaves at %d\n", with);
    exit(with * 1000 + 7);
}

int main(void) {
    putchar('>');
    deeper(20, leave);
    return 1;
}
