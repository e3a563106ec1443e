#include "words.h"
#include <stdio.h>

int main(int argc, char **argv) {
    char text[64];
    int count;
    while (read_word(text))
        count_word(text);
    const struct word *words = sorted_words(&count);
    printf("%s: %d words\n", argc > 1 ? argv[1] : "input", count);
    for (int i = 0; i < count; i++)
        printf("%5d %s\n", words[i].count, words[i].text);
    return 0;
}
