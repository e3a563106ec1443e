// Checksums of bytes by tables: CRC-32, Adler, and Fletcher over words.
#include <stdio.h>
#include <stdint.h>
#include <string.h>

static uint32_t table[256];

static void fill(void) {
    for (uint32_t n = 0; n < 256; n++) {
        uint32_t c = n;
        for (int bit = 0; bit < 8; bit++) c = c & 1 ? c >> 1 ^ 0xEDB88320u : c >> 1;
        table[n] = c;
    }
}

static uint32_t crc(const uint8_t *bytes, unsigned long count) {
    uint32_t c = 0xFFFFFFFFu;
    while (count--) c = table[(c ^ *bytes++) & 255] ^ c >> 8;
    return ~c;
}

static uint32_t adler(const uint8_t *bytes, unsigned long count) {
    uint32_t a = 1, b = 0;
    for (unsigned long i = 0; i < count; i++) a = (a + bytes[i]) % 65521, b = (b + a) % 65521;
    return b << 16 | a;
}

static uint16_t fletcher(const uint8_t *bytes, unsigned long count) {
    uint8_t a = 0, b = 0;
    for (unsigned long i = 0; i < count; i++) a = (uint8_t)((a + bytes[i]) % 255), b = (uint8_t)((b + a) % 255);
    return (uint16_t)(b << 8 | a);
}

int main(void) {
    static const char text[] = "123456789";
    uint8_t large[1000];
    fill();
    for (int i = 0; i < 1000; i++) large[i] = (uint8_t)(i * i >> 3);
    printf("%08x %08x %04x\n", crc((const uint8_t *)text, strlen(text)), adler((const uint8_t *)text, 9), fletcher((const uint8_t *)text, 9));
    uint32_t c = crc(large, sizeof large), a = adler(large, sizeof large);
    printf("%08X %08X %04X\n", c, a, fletcher(large, sizeof large));
    return (int)((c ^ a) & 255);
}
