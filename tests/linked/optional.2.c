int here = 10;
int present(int n) { return n + here; }
int *where(void) { return &here; }
