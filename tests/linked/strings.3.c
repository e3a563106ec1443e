static const char *const names[] = {"nobody", "world", "!"};
const char *name(int which) { return names[which]; }
