// Constructors of three parts, by their priorities, and in the order of the parts.
int putchar(int byte);
int order = 1;
static void add(int byte) { putchar(byte); order = order * 3 % 251 + byte; }
void add_outside(int byte) { add(byte); }
__attribute__((constructor(200))) static void a(void) { add('a'); }
__attribute__((constructor)) static void b(void) { add('b'); }
int main(void) {
    putchar('\n');
    return order % 256;
}
