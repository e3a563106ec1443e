/* Words and how often each was read. */
#ifndef WORDS_H
#define WORDS_H

struct word {
    char *text;
    int count;
};

/* Counts a word once more. */
void count_word(const char *text);

/* All words, the most frequent first, those of one count by their text. `count` is how many. */
const struct word *sorted_words(int *count);

/* Reads a word of standard input: at most 63 letters, in small ones. 0 at the end. */
int read_word(char *text);

#endif
