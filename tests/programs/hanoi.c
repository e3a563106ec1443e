// The towers of Hanoi, with towers that are kept and checked, and Ackermann's function.
#include <stdio.h>
#include <stdlib.h>

typedef struct { int disks[8]; int height; } Tower;
static Tower towers[3];
static int moves;

static void move(int from, int to) {
    Tower *a = &towers[from], *b = &towers[to];
    int disk = a->disks[--a->height];
    if (b->height && b->disks[b->height - 1] < disk) exit(99);
    b->disks[b->height++] = disk;
    if (++moves % 16 == 1) printf("%d: %c to %c\n", disk, 'A' + from, 'A' + to);
}

static void carry(int count, int from, int to, int by) {
    if (!count) return;
    carry(count - 1, from, by, to);
    move(from, to);
    carry(count - 1, by, to, from);
}

static unsigned ackermann(unsigned m, unsigned n) {
    return m == 0 ? n + 1 : n == 0 ? ackermann(m - 1, 1) : ackermann(m - 1, ackermann(m, n - 1));
}

int main(void) {
    for (int disk = 7; disk > 0; disk--) towers[0].disks[towers[0].height++] = disk;
    carry(7, 0, 2, 1);
    return moves + (int)ackermann(2, 9) + towers[2].height;
}
