// Bytes and strings: copies, reverses and prints.
#include <string.h>

int puts(const char *text);

static const char greeting[] = "hello, world";

static void reverse(char *text) {
    for (size_t i = 0, j = strlen(text); i + 1 < j; i++) {
        char c = text[i];
        text[i] = text[--j];
        text[j] = c;
    }
}

int main(void) {
    char copy[32];
    memset(copy, 0, sizeof copy);
    memcpy(copy, greeting, sizeof greeting);
    reverse(copy);
    puts(copy);
    memmove(copy + 2, copy, 6);
    puts(copy);
    return (int)strlen(copy);
}
