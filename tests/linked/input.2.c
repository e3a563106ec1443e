int getchar(void);
int read_byte(void) { return getchar(); }
