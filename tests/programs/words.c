// Words of a text, counted without regard to case: copies, comparison and a list in order.
#include <stdio.h>
#include <string.h>

typedef struct { char name[12]; int count; } Word;
static const char text[] = "The cat and the dog and THE bird; a cat, a Dog, an owl: and then the end.";
static Word words[20];
static int known;

static int is_letter(char c) { return (c >= 'a' && c <= 'z') || (c >= 'A' && c <= 'Z'); }
static char small(char c) { return c >= 'A' && c <= 'Z' ? (char)(c + 32) : c; }

static int order(const char *a, const char *b) {
    for (; *a && *a == *b; a++, b++) {}
    return (unsigned char)*a - (unsigned char)*b;
}

static void count(const char *start, unsigned long length) {
    char name[12] = {0};
    if (length > 11) length = 11;
    for (unsigned long i = 0; i < length; i++) name[i] = small(start[i]);
    int at = 0;
    while (at < known && order(words[at].name, name) < 0) at++;
    if (at < known && order(words[at].name, name) == 0) { words[at].count++; return; }
    memmove(words + at + 1, words + at, sizeof(Word) * (unsigned long)(known - at));
    memcpy(words[at].name, name, 12);
    words[at].count = 1;
    known++;
}

int main(void) {
    for (const char *at = text; *at;) {
        if (!is_letter(*at)) { at++; continue; }
        const char *end = at;
        while (is_letter(*end)) end++;
        count(at, (unsigned long)(end - at));
        at = end;
    }
    for (int i = 0; i < known; i++) printf("%-6s%2d\n", words[i].name, words[i].count);
    return known * 10 + (int)(strlen(text) % 10);
}
