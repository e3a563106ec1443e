// One part reads, another writes, and a third counts.
int read_byte(void);
void write_byte(int byte);
unsigned lines(int byte);
int main(void) {
    unsigned count = 0;
    for (int byte = read_byte(); byte >= 0; byte = read_byte()) {
        count = lines(byte);
        write_byte(byte);
    }
    return (int)count;
}
