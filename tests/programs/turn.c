// Turns each line of its input around, letters by thirteen places, and answers as it reads.
#include <stdio.h>

static int turned(int c) {
    if (c >= 'a' && c <= 'z') return 'a' + (c - 'a' + 13) % 26;
    if (c >= 'A' && c <= 'Z') return 'A' + (c - 'A' + 13) % 26;
    return c;
}

int main(void) {
    char line[64];
    int length = 0, lines = 0;
    for (;;) {
        int c = getchar();
        if (c == '\n' || c == -1) {
            while (length > 0) putchar(line[--length]);
            if (c == -1) break;
            putchar('\n');
            lines++;
        } else if (length < 64) {
            line[length++] = (char)turned(c);
        }
    }
    return lines;
}
