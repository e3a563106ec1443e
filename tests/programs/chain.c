// Lists with functions that are handed on: made, turned around, mapped, folded, merged.
#include <stdio.h>
#include <stdlib.h>

typedef struct Link { long value; struct Link *next; } Link;
typedef long (*Fold)(long, long, void *);

static Link *put(long value, Link *next) {
    Link *link = malloc(sizeof(Link));
    if (!link) exit(3);
    link->value = value;
    link->next = next;
    return link;
}

static Link *turned(Link *list) {
    Link *result = NULL;
    while (list) { Link *next = list->next; list->next = result; result = list; list = next; }
    return result;
}

static long folded(const Link *list, long value, Fold fold, void *with) {
    for (; list; list = list->next) value = fold(value, list->value, with);
    return value;
}

static long add(long a, long b, void *with) { (void)with; return a + b; }
static long mix(long a, long b, void *with) { return (a * 31 + b) % *(long *)with; }
static long show(long a, long b, void *with) { printf("%s%ld", a ? (const char *)with : "", b); return a + 1; }

static Link *merged(Link *a, Link *b) {
    Link *result = NULL, **end = &result;
    while (a && b) {
        Link **less = a->value <= b->value ? &a : &b;
        *end = *less;
        end = &(*end)->next;
        *less = (*less)->next;
    }
    *end = a ? a : b;
    return result;
}

int main(void) {
    Link *odd = NULL, *square = NULL;
    for (long i = 9; i >= 0; i--) odd = put(2 * i + 1, odd);
    for (long i = 0; i < 7; i++) square = put(i * i, square);
    Link *all = merged(odd, turned(square));
    char between[] = ", ";
    long modulus = 10007, count = folded(all, 0, show, between);
    putchar('\n');
    printf("%ld %ld %ld\n", count, folded(all, 0, add, NULL), folded(all, 1, mix, &modulus));
    while (all) { Link *next = all->next; free(all); all = next; }
    return (int)count;
}
