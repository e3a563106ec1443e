static unsigned seen;
static int is_end(int byte) { return byte == '\n'; }
unsigned lines(int byte) { return seen += (unsigned)is_end(byte); }
