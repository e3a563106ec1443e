/* What the drivers share: data that is the same on each run, and a checksum. */
#include <stdio.h>
#include <stdlib.h>
#include <string.h>

/* Fills a buffer with text-like data: words of a small vocabulary, and now and then noise. */
static void fill(unsigned char *data, size_t size, unsigned seed) {
    static const char *const words[] = {"module ", "function ", "block ", "value ", "the ", "of ",
                                        "a pointer ", "joined ", "with ", "another\n"};
    size_t place = 0;
    while (place < size) {
        seed = seed * 1103515245u + 12345u;
        const char *word = words[(seed >> 16) % 10];
        for (; *word && place < size; word++)
            data[place++] = (unsigned char)*word;
        if ((seed >> 24) % 16 == 0 && place < size)
            data[place++] = (unsigned char)(seed >> 8);
    }
}

static unsigned long checksum(const void *data, size_t size) {
    unsigned long sum = 14695981039346656037ul;
    for (size_t i = 0; i < size; i++)
        sum = (sum ^ ((const unsigned char *)data)[i]) * 1099511628211ul;
    return sum;
}

static void print(const char *what, const void *data, size_t size) {
    printf("%s: %lu bytes, %016lx\n", what, (unsigned long)size, checksum(data, size));
}

/* Ends the program where something is not as it must be. */
static void expect(int is_right, const char *what) {
    if (!is_right) {
        printf("wrong: %s\n", what);
        exit(1);
    }
}
