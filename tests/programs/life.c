// The game of life on a torus: arrays of arrays, two boards in turn.
#include <stdio.h>
#include <string.h>

enum { HIGH = 10, WIDE = 14 };
typedef unsigned char Board[HIGH][WIDE];

static int around(Board board, int row, int column) {
    int count = 0;
    for (int i = -1; i <= 1; i++)
        for (int j = -1; j <= 1; j++)
            if (i || j) count += board[(row + i + HIGH) % HIGH][(column + j + WIDE) % WIDE];
    return count;
}

static int turn(Board from, Board to) {
    int alive = 0;
    for (int row = 0; row < HIGH; row++)
        for (int column = 0; column < WIDE; column++) {
            int count = around(from, row, column);
            to[row][column] = count == 3 || (count == 2 && from[row][column]);
            alive += to[row][column];
        }
    return alive;
}

int main(void) {
    static Board boards[2];
    static const char *glider[] = {".#.", "..#", "###"};
    memset(boards, 0, sizeof boards);
    for (int row = 0; row < 3; row++)
        for (int column = 0; column < 3; column++) boards[0][row + 1][column + 1] = glider[row][column] == '#';
    for (int column = 5; column < 12; column++) boards[0][7][column] = 1;
    int alive = 0;
    for (int i = 0; i < 30; i++) alive = turn(boards[i % 2], boards[1 - i % 2]);
    for (int row = 0; row < HIGH; row++) {
        for (int column = 0; column < WIDE; column++) putchar(boards[0][row][column] ? '#' : '.');
        putchar('\n');
    }
    return alive;
}
