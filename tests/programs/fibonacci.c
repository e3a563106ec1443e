// Recursion, and 64 bits: the status is the 30th number modulo 256.
static unsigned long long slow(unsigned n) {
    return n < 2 ? n : slow(n - 1) + slow(n - 2);
}

int main(void) {
    return (int)(slow(20) + slow(10) * 3) & 255;
}
