#include <stdio.h>
__attribute__((weak)) int chosen = 8;
__attribute__((weak)) int choice(void) { return 80; }
__attribute__((constructor)) static void told(void) { printf("%d %d\n", chosen, choice()); }
