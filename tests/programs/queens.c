// Recursion with a struct by pointer and a small one by value: the solutions of six queens, and of seven.
int printf(const char *pattern, ...);

struct board {
    unsigned columns, left, right;
};

struct count {
    int solutions, tries;
};

static struct count place(int size, int row, struct board *b) {
    struct count all = {0, 0};
    if (row == size) {
        all.solutions = 1;
        return all;
    }
    for (int c = 0; c < size; c++) {
        unsigned column = 1u << c, left = 1u << (row + c), right = 1u << (row - c + size);
        all.tries++;
        if ((b->columns & column) | (b->left & left) | (b->right & right))
            continue;
        struct board next = {b->columns | column, b->left | left, b->right | right};
        struct count deeper = place(size, row + 1, &next);
        all.solutions += deeper.solutions;
        all.tries += deeper.tries;
    }
    return all;
}

int main(void) {
    struct board empty = {0, 0, 0};
    struct count six = place(6, 0, &empty), seven = place(7, 0, &empty);
    printf("%d %d of %5d\n", six.solutions, seven.solutions, seven.tries);
    return (six.solutions * 50 + seven.solutions + seven.tries) & 255;
}
