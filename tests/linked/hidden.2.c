extern int guarded;
__attribute__((visibility("hidden"))) int kept = 30;
int shown = 2;
__attribute__((visibility("hidden"))) int inner(int n) { return n + kept + guarded * shown; }
