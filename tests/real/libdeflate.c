/* Compresses and decompresses in each format at several levels. */
#include "driver.h"
#include <libdeflate.h>

#define SIZE 4000
static unsigned char data[SIZE], packed[2 * SIZE], unpacked[SIZE];

static void round_trip(int level) {
    struct libdeflate_compressor *compressor = libdeflate_alloc_compressor(level);
    struct libdeflate_decompressor *decompressor = libdeflate_alloc_decompressor();
    size_t size = libdeflate_deflate_compress(compressor, data, SIZE, packed, sizeof packed), back;
    print("deflate", packed, size);
    expect(libdeflate_deflate_decompress(decompressor, packed, size, unpacked, SIZE, &back) == 0 &&
           back == SIZE && memcmp(data, unpacked, SIZE) == 0, "deflate");
    size = libdeflate_gzip_compress(compressor, data, SIZE, packed, sizeof packed);
    print("gzip", packed, size);
    expect(libdeflate_gzip_decompress(decompressor, packed, size, unpacked, SIZE, &back) == 0 &&
           back == SIZE, "gzip");
    size = libdeflate_zlib_compress(compressor, data, SIZE, packed, sizeof packed);
    print("zlib", packed, size);
    packed[size / 3] ^= 4;
    printf("a changed bit: %d\n",
           libdeflate_zlib_decompress(decompressor, packed, size, unpacked, SIZE, &back));
    libdeflate_free_compressor(compressor);
    libdeflate_free_decompressor(decompressor);
}

int main(void) {
    fill(data, SIZE, 5);
    round_trip(1);
    round_trip(6);
    round_trip(12);
    printf("%x %x\n", libdeflate_crc32(0, data, SIZE), libdeflate_adler32(1, data, SIZE));
    return 0;
}
