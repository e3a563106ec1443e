// Every form of printf over integers, bytes and texts.
#include <stdio.h>

int main(void) {
    signed char byte = -77;
    short half = -12345;
    int n = -1234567;
    long wide = -1234567890123456789;
    int written = 0;
    written += printf("%d|%i|%5d|%-5d|%05d|%+d|% d|\n", 42, -42, 42, 42, 42, 42, 42);
    written += printf("%u|%x|%X|%o|%10x|%-10X|%010o|\n", 3000000000u, 48879u, 48879u, 511u, 48879u, 48879u, 511u);
    written += printf("%hhd|%hd|%hhu|%hu|%hhx|%ho|\n", byte, half, byte, half, byte, half);
    written += printf("%ld|%lld|%lu|%llx|%jd|%zu|%td|\n", wide, -9LL, 18446744073709551615ul, 0xfedcba9876543210ull, wide, 99ul, -5L);
    written += printf("%.3d|%.0d|%8.5d|%-8.5d|%+.2d|%.10x|%08.3d|\n", 7, 0, -42, -42, 3, 255u, 12);
    written += printf("%c%c%c|%3c|%-3c|\n", 'a', 'b' , 256 + 'c', 'd', 'e');
    written += printf("%s|%10s|%-10s|%.2s|%8.3s|%s|\n", "text", "right", "left", "cut off", "abcdef", "");
    written += printf("100%% of %d%%, and nothing\n", n);
    written += printf("%d %d %d %u\n", 2147483647, -2147483647 - 1, 0, 4294967295u);
    written += printf("%ld %ld\n", 9223372036854775807L, -9223372036854775807L - 1);
    written += printf("no conversion\n");
    written += printf("%s", "");
    written += printf("%5s%-5s|\n", "x", "y");
    printf("%d\n", written);
    return written & 127;
}
