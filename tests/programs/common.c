// The longest part that two texts have in common, and their distance, by tables.
#include <stdio.h>
#include <string.h>

static int least(int a, int b) { return a < b ? a : b; }

static int distance(const char *a, const char *b) {
    int rows[2][40], columns = (int)strlen(b);
    for (int j = 0; j <= columns; j++) rows[0][j] = j;
    for (int i = 1; a[i - 1]; i++) {
        int *now = rows[i & 1], *before = rows[(i - 1) & 1];
        now[0] = i;
        for (int j = 1; j <= columns; j++) now[j] = least(before[j - 1] + (a[i - 1] != b[j - 1]), 1 + least(before[j], now[j - 1]));
    }
    return rows[strlen(a) & 1][columns];
}

static int common(const char *a, const char *b, char *found) {
    static unsigned char lengths[40][40];
    int m = (int)strlen(a), n = (int)strlen(b);
    memset(lengths, 0, sizeof lengths);
    for (int i = m - 1; i >= 0; i--)
        for (int j = n - 1; j >= 0; j--) {
            unsigned char down = lengths[i + 1][j], right = lengths[i][j + 1];
            lengths[i][j] = a[i] == b[j] ? (unsigned char)(lengths[i + 1][j + 1] + 1) : down > right ? down : right;
        }
    int at = 0;
    for (int i = 0, j = 0; i < m && j < n;) {
        if (a[i] == b[j]) found[at++] = a[i], i++, j++;
        else if (lengths[i + 1][j] >= lengths[i][j + 1]) i++;
        else j++;
    }
    found[at] = 0;
    return at;
}

int main(void) {
    char found[40];
    int length = common("the quick brown fox jumps", "over a lazy but quicker dog", found);
    printf("%d [%s]\n", length, found);
    printf("%d %d %d\n", distance("kitten", "sitting"), distance("", "abc"), distance("intermediate", "interpreter"));
    return length + distance("the quick brown fox jumps", found) * 2;
}
