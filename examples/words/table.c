#include "words.h"
#include <stdlib.h>
#include <string.h>

static struct word *words;
static int used, room;

void count_word(const char *text) {
    for (int i = 0; i < used; i++)
        if (strcmp(words[i].text, text) == 0) {
            words[i].count++;
            return;
        }
    if (used == room) {
        room = 2 * room + 4;
        words = realloc(words, (size_t)room * sizeof *words);
    }
    words[used].text = malloc(strlen(text) + 1);
    strcpy(words[used].text, text);
    words[used++].count = 1;
}

static int compare(const void *left, const void *right) {
    const struct word *a = left, *b = right;
    return a->count != b->count ? b->count - a->count : strcmp(a->text, b->text);
}

const struct word *sorted_words(int *count) {
    *count = used;
    if (used > 0)
        qsort(words, (size_t)used, sizeof *words, compare);
    return words;
}
