// Pointers to functions, and an insertion sort of structs.
struct pair {
    short key;
    long value;
};

typedef int (*order)(const struct pair *, const struct pair *);

static int by_key(const struct pair *a, const struct pair *b) { return a->key - b->key; }
static int by_value(const struct pair *a, const struct pair *b) { return (a->value > b->value) - (a->value < b->value); }

static order orders[2] = {by_key, by_value};

void sort(struct pair *all, int count, order less) {
    for (int i = 1; i < count; i++) {
        struct pair one = all[i];
        int j = i;
        for (; j > 0 && less(&one, &all[j - 1]) < 0; j--)
            all[j] = all[j - 1];
        all[j] = one;
    }
}

int main(void) {
    struct pair all[8];
    unsigned seed = 12345;
    for (int i = 0; i < 8; i++) {
        seed = seed * 1103515245u + 12345u;
        all[i].key = (short)(seed >> 16);
        all[i].value = (long)(seed ^ (seed << 7)) - 7;
    }
    unsigned status = 0;
    for (int k = 0; k < 2; k++) {
        sort(all, 8, orders[k]);
        for (int i = 0; i < 8; i++)
            status = status * 31 + (unsigned)all[i].key + (unsigned)(all[i].value & 15);
    }
    return (int)(status & 255);
}
