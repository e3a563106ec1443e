// Structs within structs, fields of bits, unions, structs by value and given back.
#include <stdio.h>
#include <stdint.h>

typedef struct { unsigned red : 5, green : 6, blue : 5; } Colour;
typedef union { uint32_t word; uint8_t bytes[4]; Colour colour; } Cell;
typedef struct { int x, y; } Point;
typedef struct { Point from, to; char name[3]; Cell cells[2]; } Line;
typedef struct { int64_t a, b, c; } Large;
typedef struct { char c; int i; short s; } Padded;
typedef struct __attribute__((packed)) { char c; int i; short s; } Packed;

static Point middle(const Line *line) { return (Point){(line->from.x + line->to.x) / 2, (line->from.y + line->to.y) / 2}; }
static Large grown(const Large *old, int by) { return (Large){old->b, old->c, old->a + by}; }
static int span(Point a, Point b) { return b.x - a.x + b.y - a.y; }
static int area(const Line *line) { return (line->to.x - line->from.x) * (line->to.y - line->from.y); }

int main(void) {
    Line line = {{1, 2}, {11, 32}, "ab", {{0x12345678}, {0}}};
    line.cells[1].colour = (Colour){31, 42, 7};
    Point point = middle(&line);
    Large large = {1, 2, 3};
    for (int i = 0; i < 20; i++) large = grown(&large, i);
    Packed packed = {'p', -2, 3};
    Padded padded = {packed.c, packed.i, packed.s};
    printf("%d %d %d %d %s\n", point.x, point.y, span(line.from, point), area(&line), line.name);
    printf("%02x %02x %04x %u\n", line.cells[0].bytes[0], line.cells[0].bytes[3], line.cells[1].word, line.cells[1].colour.green);
    printf("%ld %ld %ld\n", large.a, large.b, large.c);
    printf("%lu %lu %d %c\n", sizeof padded, sizeof packed, padded.i * padded.s, packed.c);
    Line copy = line;
    copy.to.y += 10;
    return area(&copy) - area(&line) + (int)sizeof(Line);
}
