/* Compresses and decompresses by the stream interface in small pieces, at three levels and with
   each kind of header, and by `compress2`. */
#include "driver.h"
#include <zlib.h>

#define SIZE 20000
static unsigned char data[SIZE], packed[2 * SIZE], unpacked[SIZE];

static size_t pack(int level, int window, int strategy) {
    z_stream stream = {0};
    expect(deflateInit2(&stream, level, Z_DEFLATED, window, 8, strategy) == Z_OK, "deflateInit2");
    stream.next_out = packed;
    stream.avail_out = sizeof packed;
    for (size_t place = 0; place < SIZE; place += 4096) {
        int is_last = place + 4096 >= SIZE;
        stream.next_in = data + place;
        stream.avail_in = is_last ? SIZE - (uInt)place : 4096;
        int status = deflate(&stream, is_last ? Z_FINISH : Z_NO_FLUSH);
        expect(status == (is_last ? Z_STREAM_END : Z_OK), "deflate");
    }
    deflateEnd(&stream);
    return stream.total_out;
}

static void unpack(size_t size, int window) {
    z_stream stream = {0};
    expect(inflateInit2(&stream, window) == Z_OK, "inflateInit2");
    stream.next_in = packed;
    stream.avail_in = (uInt)size;
    int status = Z_OK;
    while (status == Z_OK) {
        stream.next_out = unpacked + stream.total_out;
        stream.avail_out = 1000;
        if (stream.total_out + 1000 > SIZE)
            stream.avail_out = SIZE - (uInt)stream.total_out;
        status = inflate(&stream, Z_NO_FLUSH);
    }
    expect(status == Z_STREAM_END && memcmp(data, unpacked, SIZE) == 0, "inflate");
    inflateEnd(&stream);
}

int main(void) {
    static const int levels[] = {1, 6, 9}, windows[] = {15, -15, 31};
    fill(data, SIZE, 1);
    for (int i = 0; i < 3; i++) {
        size_t size = pack(levels[i], windows[i], i == 1 ? Z_FILTERED : Z_DEFAULT_STRATEGY);
        print("stream", packed, size);
        unpack(size, windows[i]);
    }
    uLongf size = sizeof packed, back = SIZE;
    expect(compress2(packed, &size, data, SIZE, 6) == Z_OK, "compress2");
    print("compress2", packed, size);
    expect(uncompress(unpacked, &back, packed, size) == Z_OK && back == SIZE, "uncompress");
    packed[size / 2] ^= 1;
    back = SIZE;
    printf("a changed bit: %d\n", uncompress(unpacked, &back, packed, size));
    printf("%lx %lx\n", adler32(1, data, SIZE), crc32(0, data, SIZE));
    return 0;
}
