/* Functions of the C library that integer programs call and lli has no host function for. Link
   the text that clang prints of this file, and examples/blocks.ll, to a program:

       clang-19 @examples/cflags -O1 -S -emit-llvm -o libc.ll examples/libc.c
       llvm-link program.ll libc.ll examples/blocks.ll -o program.bc

   All are weak: a program that defines one of them itself keeps its own. It calls the host's
   malloc, free, memcpy, memset, strlen, printf, putchar and abort. Results are those of glibc in
   the C locale, the sign of strcmp and its kin and what rand gives included. */
#include <stddef.h>

#define WEAK __attribute__((weak))
#define ERANGE 34
#define EINVAL 22
#pragma clang diagnostic ignored "-Wincompatible-library-redeclaration"
#pragma clang diagnostic ignored "-Wbuiltin-requires-header"

void *malloc(size_t size);
void free(void *block);
void *memcpy(void *restrict target, const void *restrict source, size_t count);
void *memset(void *target, int byte, size_t count);
size_t strlen(const char *text);
int printf(const char *restrict pattern, ...);
int putchar(int byte);
void abort(void) __attribute__((noreturn));
/* The size of a block of the heap: of examples/blocks.ll, natively of glibc. */
size_t malloc_usable_size(void *block);

/* ---- comparing */

WEAK int memcmp(const void *left, const void *right, size_t count) {
    const unsigned char *a = left, *b = right;
    for (size_t i = 0; i < count; i++)
        if (a[i] != b[i])
            return a[i] - b[i];
    return 0;
}

WEAK int bcmp(const void *left, const void *right, size_t count) {
    return memcmp(left, right, count);
}

WEAK int strncmp(const char *left, const char *right, size_t count) {
    const unsigned char *a = (const unsigned char *)left, *b = (const unsigned char *)right;
    for (size_t i = 0; i < count; i++)
        if (a[i] != b[i] || a[i] == 0)
            return a[i] - b[i];
    return 0;
}

WEAK int strcmp(const char *left, const char *right) {
    return strncmp(left, right, (size_t)-1);
}

/* ---- searching */

WEAK void *memchr(const void *bytes, int byte, size_t count) {
    const unsigned char *here = bytes;
    for (size_t i = 0; i < count; i++)
        if (here[i] == (unsigned char)byte)
            return (void *)(here + i);
    return NULL;
}

WEAK char *strchr(const char *text, int byte) {
    for (;; text++) {
        if (*text == (char)byte)
            return (char *)text;
        if (*text == 0)
            return NULL;
    }
}

WEAK char *strrchr(const char *text, int byte) {
    const char *last = NULL;
    for (;; text++) {
        if (*text == (char)byte)
            last = text;
        if (*text == 0)
            return (char *)last;
    }
}

WEAK char *strstr(const char *text, const char *part) {
    size_t count = strlen(part);
    for (;; text++) {
        if (strncmp(text, part, count) == 0)
            return (char *)text;
        if (*text == 0)
            return NULL;
    }
}

WEAK size_t strnlen(const char *text, size_t most) {
    size_t count = 0;
    while (count < most && text[count] != 0)
        count++;
    return count;
}

/* The number of bytes at the start of a text that are in a list, or that are not. */
static size_t span(const char *text, const char *list, int wanted) {
    size_t count = 0;
    while (text[count] != 0 && (strchr(list, text[count]) != NULL) == wanted)
        count++;
    return count;
}

WEAK size_t strspn(const char *text, const char *list) {
    return span(text, list, 1);
}

WEAK size_t strcspn(const char *text, const char *list) {
    return span(text, list, 0);
}

/* ---- copying */

WEAK char *stpcpy(char *restrict target, const char *restrict source) {
    size_t count = strlen(source);
    memcpy(target, source, count + 1);
    return target + count;
}

WEAK char *strcpy(char *restrict target, const char *restrict source) {
    memcpy(target, source, strlen(source) + 1);
    return target;
}

WEAK char *strncpy(char *restrict target, const char *restrict source, size_t count) {
    size_t length = strnlen(source, count);
    memcpy(target, source, length);
    memset(target + length, 0, count - length);
    return target;
}

WEAK char *strcat(char *restrict target, const char *restrict source) {
    memcpy(target + strlen(target), source, strlen(source) + 1);
    return target;
}

WEAK char *strncat(char *restrict target, const char *restrict source, size_t count) {
    size_t before = strlen(target), length = strnlen(source, count);
    memcpy(target + before, source, length);
    target[before + length] = 0;
    return target;
}

WEAK char *strdup(const char *text) {
    size_t count = strlen(text) + 1;
    char *copy = malloc(count);
    return copy ? memcpy(copy, text, count) : NULL;
}

/* ---- memory */

WEAK void *calloc(size_t count, size_t size) {
    size_t bytes;
    if (__builtin_mul_overflow(count, size, &bytes))
        return NULL;
    void *block = malloc(bytes);
    return block ? memset(block, 0, bytes) : NULL;
}

WEAK void *realloc(void *block, size_t size) {
    if (block == NULL)
        return malloc(size);
    if (size == 0) {
        free(block);
        return NULL;
    }
    void *next = malloc(size);
    if (next == NULL)
        return NULL;
    size_t before = malloc_usable_size(block);
    memcpy(next, block, before < size ? before : size);
    free(block);
    return next;
}

/* ---- sorting */

typedef int compare(const void *left, const void *right);

/* Sorts elements, those that compare equal in their order, with room for as many. */
static void merge_sort(char *first, size_t count, size_t size, compare *order, char *room) {
    if (count < 2)
        return;
    size_t half = count / 2, left = 0, right = half;
    merge_sort(first, half, size, order, room);
    merge_sort(first + half * size, count - half, size, order, room);
    for (size_t place = 0; place < count; place++) {
        int is_left = right == count ||
            (left < half && order(first + left * size, first + right * size) <= 0);
        size_t from = is_left ? left++ : right++;
        memcpy(room + place * size, first + from * size, size);
    }
    memcpy(first, room, count * size);
}

WEAK void qsort(void *first, size_t count, size_t size, compare *order) {
    if (count < 2 || size == 0)
        return;
    char *room = malloc(count * size);
    if (room == NULL)
        abort();
    merge_sort(first, count, size, order, room);
    free(room);
}

WEAK void *bsearch(const void *key, const void *first, size_t count, size_t size,
                   compare *order) {
    size_t low = 0, high = count;
    while (low < high) {
        size_t middle = low + (high - low) / 2;
        const char *element = (const char *)first + middle * size;
        int sign = order(key, element);
        if (sign == 0)
            return (void *)element;
        if (sign < 0)
            high = middle;
        else
            low = middle + 1;
    }
    return NULL;
}

/* ---- kinds of characters, in the C locale */

WEAK int isdigit(int c) { return c >= '0' && c <= '9'; }
WEAK int islower(int c) { return c >= 'a' && c <= 'z'; }
WEAK int isupper(int c) { return c >= 'A' && c <= 'Z'; }
WEAK int isalpha(int c) { return islower(c) || isupper(c); }
WEAK int isalnum(int c) { return isalpha(c) || isdigit(c); }
WEAK int isblank(int c) { return c == ' ' || c == '\t'; }
WEAK int isspace(int c) { return c == ' ' || (c >= '\t' && c <= '\r'); }
WEAK int iscntrl(int c) { return (c >= 0 && c < 32) || c == 127; }
WEAK int isprint(int c) { return c >= 32 && c < 127; }
WEAK int isgraph(int c) { return c > 32 && c < 127; }
WEAK int ispunct(int c) { return isgraph(c) && !isalnum(c); }
WEAK int tolower(int c) { return isupper(c) ? c - 'A' + 'a' : c; }
WEAK int toupper(int c) { return islower(c) ? c - 'a' + 'A' : c; }

WEAK int isxdigit(int c) {
    return isdigit(c) || (c >= 'a' && c <= 'f') || (c >= 'A' && c <= 'F');
}

/* ---- numbers */

static int last_error;

/* What <errno.h> calls errno. */
WEAK int *__errno_location(void) {
    return &last_error;
}

/* A number at the start of a text. */
struct number {
    unsigned long value;    /* without its sign */
    int is_negative, is_too_large;
};

/* The value of a digit, or 36. */
static int digit_value(int c) {
    return isdigit(c) ? c - '0' : isalpha(c) ? tolower(c) - 'a' + 10 : 36;
}

/* Reads a number, sets `end` to what follows it, and gives it. A base that is none gives 0. */
static void read_number(const char *text, char **end, int base, struct number *number) {
    const char *here = text, *digits;
    *number = (struct number){0, 0, 0};
    if (base < 0 || base == 1 || base > 36) {
        *__errno_location() = EINVAL;
        return;
    }
    while (isspace((unsigned char)*here))
        here++;
    number->is_negative = *here == '-';
    if (*here == '-' || *here == '+')
        here++;
    int has_prefix = here[0] == '0' && tolower((unsigned char)here[1]) == 'x' &&
        isxdigit((unsigned char)here[2]);
    if ((base == 0 || base == 16) && has_prefix) {
        here += 2;
        base = 16;
    } else if (base == 0) {
        base = *here == '0' ? 8 : 10;
    }
    for (digits = here; digit_value((unsigned char)*here) < base; here++) {
        unsigned long value = number->value;
        if (__builtin_mul_overflow(value, (unsigned long)base, &value) ||
            __builtin_add_overflow(value, (unsigned long)digit_value(*here), &value))
            number->is_too_large = 1;
        number->value = value;
    }
    if (end != NULL)
        *end = (char *)(here == digits ? text : here);
}

WEAK unsigned long strtoul(const char *restrict text, char **restrict end, int base) {
    struct number number;
    read_number(text, end, base, &number);
    if (number.is_too_large) {
        *__errno_location() = ERANGE;
        return -1ul;
    }
    return number.is_negative ? -number.value : number.value;
}

WEAK long strtol(const char *restrict text, char **restrict end, int base) {
    struct number number;
    read_number(text, end, base, &number);
    unsigned long most = (unsigned long)__LONG_MAX__ + (unsigned long)number.is_negative;
    if (number.is_too_large || number.value > most) {
        *__errno_location() = ERANGE;
        return (long)most;
    }
    return (long)(number.is_negative ? -number.value : number.value);
}

WEAK long long strtoll(const char *restrict text, char **restrict end, int base) {
    return strtol(text, end, base);
}

WEAK unsigned long long strtoull(const char *restrict text, char **restrict end, int base) {
    return strtoul(text, end, base);
}

WEAK int atoi(const char *text) { return (int)strtol(text, NULL, 10); }
WEAK long atol(const char *text) { return strtol(text, NULL, 10); }
WEAK int abs(int number) { return number < 0 ? -number : number; }
WEAK long labs(long number) { return number < 0 ? -number : number; }
WEAK long long llabs(long long number) { return number < 0 ? -number : number; }

/* ---- random numbers: the sum of two earlier ones, as in glibc */

static unsigned table[31];
static int newest, is_seeded;

WEAK int rand(void);

WEAK void srand(unsigned seed) {
    long word = (int)(seed == 0 ? 1 : seed);
    table[0] = (unsigned)word;
    for (int i = 1; i < 31; i++) {
        word = 16807 * (word % 127773) - 2836 * (word / 127773);
        if (word < 0)
            word += 2147483647;
        table[i] = (unsigned)word;
    }
    newest = 2;
    is_seeded = 1;
    for (int i = 0; i < 310; i++)
        rand();
}

WEAK int rand(void) {
    if (!is_seeded)
        srand(1);
    newest = (newest + 1) % 31;
    table[newest] += table[(newest + 28) % 31];
    return (int)(table[newest] >> 1);
}

/* ---- streams: standard output is the host's, and what goes to another stream is dropped */

static char streams[3];
WEAK void *stdin = streams, *stdout = streams + 1, *stderr = streams + 2;

WEAK int fputc(int byte, void *stream) {
    return stream == stdout ? putchar(byte) : (unsigned char)byte;
}

WEAK int putc(int byte, void *stream) {
    return fputc(byte, stream);
}

WEAK int fputs(const char *restrict text, void *restrict stream) {
    if (stream == stdout)
        printf("%s", text);
    return 1;
}

WEAK size_t fwrite(const void *restrict bytes, size_t size, size_t count, void *restrict stream) {
    const unsigned char *here = bytes;
    for (size_t i = 0; stream == stdout && i < size * count; i++)
        putchar(here[i]);
    return size == 0 ? 0 : count;
}

WEAK int fflush(void *stream) {
    (void)stream;
    return 0;
}

/* The language has no definitions of variable arguments. So a program that calls these links and
   runs, and the call, where it is reached, ends it: `lli: undefined: another function type`. */
WEAK int fprintf(void) { return -1; }
WEAK int sprintf(void) { return -1; }
WEAK int snprintf(void) { return -1; }

/* ---- the process */

WEAK char *getenv(const char *name) {
    (void)name;
    return NULL;
}

/* What a failed assert calls. */
WEAK void __assert_fail(const char *text, const char *file, unsigned line, const char *function) {
    (void)text, (void)file, (void)line, (void)function;
    abort();
}
