// Expressions read by descent: numbers, names, brackets, and what is wrong with them.
#include <stdio.h>

typedef struct { const char *at; int failed; long names[26]; } Reader;
static long sum(Reader *r);

static void skip(Reader *r) { while (*r->at == ' ') r->at++; }
static int takes(Reader *r, char c) { skip(r); return *r->at == c ? (r->at++, 1) : 0; }

static long atom(Reader *r) {
    skip(r);
    if (takes(r, '(')) {
        long value = sum(r);
        if (!takes(r, ')')) r->failed = 1;
        return value;
    }
    if (takes(r, '-')) return -atom(r);
    if (*r->at >= 'a' && *r->at <= 'z') {
        int name = *r->at++ - 'a';
        return takes(r, '=') ? r->names[name] = sum(r) : r->names[name];
    }
    if (*r->at < '0' || *r->at > '9') { r->failed = 2; return 0; }
    long value = 0;
    while (*r->at >= '0' && *r->at <= '9') value = value * 10 + (*r->at++ - '0');
    return value;
}

static long product(Reader *r) {
    long value = atom(r);
    for (;;) {
        if (takes(r, '*')) value *= atom(r);
        else if (takes(r, '/')) {
            long by = atom(r);
            if (by == 0) { r->failed = 3; return 0; }
            value /= by;
        } else return value;
    }
}

static long sum(Reader *r) {
    long value = product(r);
    for (;;) {
        if (takes(r, '+')) value += product(r);
        else if (takes(r, '-')) value -= product(r);
        else return value;
    }
}

int main(void) {
    static const char *lines[] = {"1 + 2 * 3", "(1 + 2) * -3", "x = 7 * (y = 6)", "x / y - 100 / 7 / 2", "2 * (3", "4 / (x - 42)", "* 2", "a = b = c = 12345678901 * 3"};
    Reader r = {0};
    int failures = 0;
    for (int i = 0; i < 8; i++) {
        r.at = lines[i];
        r.failed = 0;
        long value = sum(&r);
        if (r.failed) failures++, printf("wrong %d at %c\n", r.failed, *r.at ? *r.at : '.');
        else printf("%ld\n", value);
    }
    return failures * 10 + (int)(r.names['x' - 'a'] % 10);
}
