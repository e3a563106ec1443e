int putchar(int byte);
static int upper(int byte) { return byte >= 'a' && byte <= 'z' ? byte - 32 : byte; }
void write_byte(int byte) { putchar(upper(byte)); }
