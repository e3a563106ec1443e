const unsigned char weights[] = {1, 2, 4, 8, 16, 32};
const char *const words[] = {"one", "two", "three", 0};
