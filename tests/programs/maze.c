// The shortest way through a maze: a ring of places to look at, and the way back.
#include <stdio.h>
#include <string.h>

enum { HIGH = 7, WIDE = 15 };
static const char maze[HIGH][WIDE + 1] = {
    "###############", "#S..#.....#...#", "###.#.###.#.#.#", "#...#.#.#...#.#", "#.###.#.#####.#", "#.......#....E#", "###############"};
typedef struct { short row, column; } Place;

int main(void) {
    static const Place ways[4] = {{0, 1}, {1, 0}, {0, -1}, {-1, 0}};
    Place ring[16], start = {0, 0}, end = {0, 0}, from[HIGH][WIDE];
    int first = 0, waiting = 0, most = 0, steps[HIGH][WIDE];
    char shown[HIGH][WIDE + 1];
    memcpy(shown, maze, sizeof shown);
    memset(steps, -1, sizeof steps);
    for (short row = 0; row < HIGH; row++)
        for (short column = 0; column < WIDE; column++) {
            if (maze[row][column] == 'S') start = (Place){row, column};
            if (maze[row][column] == 'E') end = (Place){row, column};
        }
    steps[start.row][start.column] = 0;
    ring[waiting++] = start;
    while (waiting) {
        Place here = ring[first];
        first = (first + 1) % 16;
        waiting--;
        for (int i = 0; i < 4; i++) {
            Place next = {(short)(here.row + ways[i].row), (short)(here.column + ways[i].column)};
            if (maze[next.row][next.column] == '#' || steps[next.row][next.column] >= 0) continue;
            steps[next.row][next.column] = steps[here.row][here.column] + 1;
            from[next.row][next.column] = here;
            ring[(first + waiting++) % 16] = next;
            if (waiting > most) most = waiting;
        }
    }
    if (steps[end.row][end.column] < 0) return 1;
    for (Place at = from[end.row][end.column]; at.row != start.row || at.column != start.column; at = from[at.row][at.column]) shown[at.row][at.column] = '+';
    for (int row = 0; row < HIGH; row++) puts(shown[row]);
    return steps[end.row][end.column] * 4 + most;
}
