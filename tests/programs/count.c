// Counts the lines, words and bytes of its input, and which byte comes most.
#include <stdio.h>

int main(void) {
    int bytes = 0, lines = 0, words = 0, inside = 0, counts[256] = {0};
    for (int c; (c = getchar()) != -1;) {
        bytes++;
        counts[c]++;
        if (c == '\n') lines++;
        int space = c == ' ' || c == '\n' || c == '\t';
        if (!space && !inside) words++;
        inside = !space;
    }
    int most = 0;
    for (int c = 1; c < 256; c++) if (counts[c] > counts[most]) most = c;
    printf("%7d%8d%8d\n", lines, words, bytes);
    printf("%02x %d\n", (unsigned)most, counts[most]);
    return bytes == 0 ? 1 : 0;
}
