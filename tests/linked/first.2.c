__attribute__((weak)) int chosen = 7;
__attribute__((weak)) int choice(void) { return 70; }
int asked(void) { return chosen + choice(); }
