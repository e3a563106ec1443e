/* Compresses and decompresses blocks: fast, at two levels of LZ4HC, in a stream. */
#include "driver.h"
#include <lz4.h>
#include <lz4hc.h>
#include <xxhash.h>

#define SIZE 40000
static char data[SIZE], packed[LZ4_COMPRESSBOUND(SIZE)], unpacked[SIZE];

static void check(const char *what, int size) {
    expect(size > 0, what);
    print(what, packed, (size_t)size);
    memset(unpacked, 0, SIZE);
    expect(LZ4_decompress_safe(packed, unpacked, size, SIZE) == SIZE, what);
    expect(memcmp(data, unpacked, SIZE) == 0, what);
}

static void stream(void) {
    LZ4_stream_t *state = LZ4_createStream();
    char *target = unpacked;
    memset(unpacked, 0, SIZE);
    LZ4_streamDecode_t *decoder = LZ4_createStreamDecode();
    for (int place = 0; place < SIZE; place += 5000, target += 5000) {
        int size = LZ4_compress_fast_continue(state, data + place, packed, 5000, sizeof packed, 1);
        print("part", packed, (size_t)size);
        expect(LZ4_decompress_safe_continue(decoder, packed, target, size, 5000) == 5000, "part");
    }
    expect(memcmp(data, unpacked, SIZE) == 0, "stream");
    LZ4_freeStreamDecode(decoder);
    LZ4_freeStream(state);
}

int main(void) {
    fill((unsigned char *)data, SIZE, 3);
    check("default", LZ4_compress_default(data, packed, SIZE, sizeof packed));
    check("fast 7", LZ4_compress_fast(data, packed, SIZE, sizeof packed, 7));
    check("level 4", LZ4_compress_HC(data, packed, SIZE, sizeof packed, 4));
    check("level 11", LZ4_compress_HC(data, packed, SIZE, sizeof packed, 11));
    stream();
    printf("%x %lx\n", XXH32(data, SIZE, 1), (unsigned long)XXH64(data, SIZE, 2));
    packed[9] ^= 64;
    printf("a changed bit: %d\n", LZ4_decompress_safe(packed, unpacked, 999, SIZE));
    return 0;
}
