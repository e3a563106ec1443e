#include "words.h"
#include <ctype.h>
#include <stdio.h>

int read_word(char *text) {
    int letter = getchar(), length = 0;
    while (letter != EOF && !isalpha(letter))
        letter = getchar();
    for (; letter != EOF && isalpha(letter); letter = getchar())
        if (length < 63)
            text[length++] = (char)tolower(letter);
    text[length] = 0;
    return length > 0;
}
