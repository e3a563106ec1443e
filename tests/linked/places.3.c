void sort(int *from, int *to) {
    for (int *i = from; i < to; i++)
        for (int *j = i; j > from && j[-1] > *j; j--) {
            int kept = *j;
            *j = j[-1];
            j[-1] = kept;
        }
}
