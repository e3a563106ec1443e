// Its arguments, one a line with their lengths, and numbers among them added up.
#include <stdio.h>
#include <string.h>

static int number(const char *word, long *value) {
    int negative = *word == '-';
    long n = 0;
    if (negative) word++;
    if (!*word) return 0;
    for (; *word; word++) {
        if (*word < '0' || *word > '9' || n > 100000000) return 0;
        n = n * 10 + *word - '0';
    }
    *value = negative ? -n : n;
    return 1;
}

int main(int count, char **words) {
    long sum = 0, value;
    for (int i = 1; i < count; i++) {
        if (number(words[i], &value)) sum += value;
        else printf("%2lu %s\n", strlen(words[i]), words[i]);
    }
    printf("%d %ld\n", count - 1, sum);
    return (int)sum;
}
