// Texts that each part calls by the same names.
#include <stdio.h>
#include <string.h>
const char *greeting(void);
const char *name(int which);
int main(void) {
    char room[40];
    memcpy(room, greeting(), strlen(greeting()) + 1);
    memcpy(room + strlen(room), name(1), strlen(name(1)) + 1);
    printf("%s%s\n", room, "!");
    puts(name(0));
    return (int)strlen(room);
}
