/* Random cases of the functions of examples/libc.c. Prints a line for each group of functions: how
   many cases, and a checksum of all results; with a group's name, each result of it.

       cases COUNT SEED [GROUP] */
#include <ctype.h>
#include <errno.h>
#include <stdio.h>
#include <stdlib.h>
#include <string.h>
#include <strings.h>

static unsigned long state, checksum;
static int is_verbose;

static unsigned below(unsigned limit) {
    state ^= state << 13;
    state ^= state >> 7;
    state ^= state << 17;
    return (unsigned)(state >> 20) % limit;
}

static void note(long value) {
    checksum = (checksum ^ (unsigned long)value) * 1099511628211ul;
    if (is_verbose)
        printf(" %ld", value);
}

static void note_bytes(const void *bytes, size_t count) {
    for (size_t i = 0; i < count; i++)
        note(((const unsigned char *)bytes)[i]);
}

/* The place of a pointer in a text, or -1 for the null pointer. */
static void note_place(const void *place, const char *text) {
    note(place ? (const char *)place - text : -1);
}

static void note_sign(int number) {
    note((number > 0) - (number < 0));
}

/* Fills a text with at most 23 of a few bytes, and gives their number. */
static size_t fill(char *text) {
    static const char bytes[] = "aab\x01\x7f\x80\xff";
    size_t count = below(below(24) + 1);
    for (size_t i = 0; i < count; i++)
        text[i] = bytes[below(7)];
    memset(text + count, 0, 64 - count);
    return count;
}

static void compare(void) {
    char left[64], right[64];
    size_t count = below(24);
    fill(left);
    fill(right);
    if (below(2))
        memcpy(right, left, below(24));
    note_sign(memcmp(left, right, count));
    note(bcmp(left, right, count) != 0);
    note_sign(strcmp(left, right));
    note_sign(strncmp(left, right, count));
}

static void search(void) {
    char text[64], list[64];
    size_t count = fill(text);
    int byte = below(3) ? text[below(24)] : (int)below(600) - 300;
    fill(list);
    list[below(4)] = 0;
    note_place(memchr(text, byte, count), text);
    note_place(strchr(text, byte), text);
    note_place(strrchr(text, byte), text);
    note_place(strstr(text, list), text);
    note((long)strnlen(text, below(30)));
    note((long)strspn(text, list));
    note((long)strcspn(text, list));
}

static void copy(void) {
    char source[64], target[64];
    fill(source);
    memset(target, 7, 64);
    note_place(strcpy(target, source), target);
    note_place(stpcpy(target, source), target);
    note_place(strncpy(target, source, below(30)), target);
    note_bytes(target, 64);
    fill(target);
    note_place(strcat(target, source), target);
    target[below(24)] = 0;
    note_place(strncat(target, source, below(30)), target);
    note_bytes(target, 64);
    char *twin = strdup(source);
    note_bytes(twin, strlen(source) + 1);
    free(twin);
}

static void memory(void) {
    size_t count = below(40) + 1, size = below(3) + 1;
    unsigned char *block = calloc(count, size);
    note_bytes(block, count * size);
    for (int i = 0; i < 3; i++) {
        size_t next = below(200) + 1, kept = next < count ? next : count;
        memset(block, (int)below(256), count);
        block = realloc(block, next);
        note_bytes(block, kept);
        count = next;
    }
    free(block);
    block = realloc(NULL, 5);
    memcpy(block, "five", 5);
    block = realloc(block, 4 + below(3));
    note_bytes(block, 4);
    free(block);
}

struct row { short key, place; char *text; };

static int by_key(const void *left, const void *right) {
    const struct row *a = left, *b = right;
    return a->key != b->key ? a->key - b->key : a->place - b->place;
}

static int by_byte(const void *left, const void *right) {
    return *(const unsigned char *)left - *(const unsigned char *)right;
}

static void sort(void) {
    static char texts[4][2] = {"a", "b", "c", "d"};
    struct row rows[40];
    unsigned char bytes[41];
    size_t count = below(40);
    for (size_t i = 0; i < count; i++) {
        rows[i] = (struct row){(short)(below(20) - 10), (short)i, texts[below(4)]};
        bytes[i] = (unsigned char)below(256);
    }
    qsort(rows, count, sizeof *rows, by_key);
    for (size_t i = 0; i < count; i++)
        note(rows[i].key), note(rows[i].place), note(*rows[i].text);
    qsort(bytes, count, 1, by_byte);
    note_bytes(bytes, count);
    struct row *found, key = rows[count / 2];
    if (count > 0 && below(2))
        found = bsearch(&key, rows, count, sizeof *rows, by_key);
    else
        key.key = 99, key.place = 0, found = bsearch(&key, rows, count, sizeof *rows, by_key);
    note(found ? found - rows : -1);
}

static void kinds(void) {
    int c = (int)below(257) - 1;
    note(!isalnum(c)), note(!isalpha(c)), note(!isblank(c)), note(!iscntrl(c)), note(!isdigit(c));
    note(!isgraph(c)), note(!islower(c)), note(!isprint(c)), note(!ispunct(c)), note(!isspace(c));
    note(!isupper(c)), note(!isxdigit(c)), note(tolower(c)), note(toupper(c));
}

static void numbers(void) {
    static const char bytes[] = " \t\n+-00xX1234567899999afFzZ@[`\x80";
    char text[64], *end = text;
    size_t count = below(26), from = below(2) ? 0 : 8;
    for (size_t i = 0; i < count; i++)
        text[i] = bytes[from + below(below(2) ? sizeof bytes - 1 - (unsigned)from : 15)];
    text[count] = 0;
    int base = below(2) ? 10 : below(2) ? 0 : (int)below(39) - 1;
    errno = 0;
    note(strtol(text, &end, base)), note_place(end, text), note(errno), errno = 0;
    note((long)strtoul(text, &end, base)), note_place(end, text), note(errno), errno = 0;
    note(strtoll(text, NULL, base)), note((long)strtoull(text, NULL, base)), note(errno);
    note(atoi(text)), note(atol(text));
    int number = (int)below(2000000) - 1000000;
    note(abs(number)), note(labs(number * 4000000000l)), note(llabs(number * 5000000000ll));
}

static void chance(void) {
    if (below(10) == 0)
        srand(below(3) ? below(1u << 31) * 2 : below(2));
    note(rand());
}

static void streams(void) {
    static const char text[] = "streams of bytes";
    const char *from = text + below(16);
    note(fputs(from, stdout) >= 0);
    note(fputc('a' + (int)below(26), stdout));
    note(putc('\n', stdout));
    note((long)fwrite(from, below(2) + 1, below((unsigned)strlen(from) / 2 + 1), stdout));
    note(fflush(stdout));
    if (below(2000) == 0 && stderr == NULL)
        fprintf(stderr, "never reached, and %d linked", 1);
}

static const struct { const char *name; void (*run)(void); } groups[] = {
    {"compare", compare}, {"search", search}, {"copy", copy}, {"memory", memory}, {"sort", sort},
    {"kinds", kinds}, {"numbers", numbers}, {"chance", chance}, {"streams", streams},
};

int main(int argc, char **argv) {
    long count = argc > 1 ? atol(argv[1]) : 100;
    for (unsigned i = 0; i < sizeof groups / sizeof *groups; i++) {
        is_verbose = argc > 3 && strcmp(argv[3], groups[i].name) == 0;
        if (argc > 3 && !is_verbose)
            continue;
        state = 88172645463325252ul + (argc > 2 ? strtoul(argv[2], NULL, 10) : 1) * 2654435761ul;
        checksum = 14695981039346656037ul;
        for (long j = 0; j < count; j++) {
            groups[i].run();
            if (is_verbose)
                printf("\n");
        }
        printf("\n%s %ld %lx\n", groups[i].name, count, checksum);
    }
    return 0;
}
