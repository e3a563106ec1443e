/* Compresses and decompresses a buffer. */
#include "driver.h"
#include <bzlib.h>

#define SIZE 12000
static char data[SIZE], packed[2 * SIZE], unpacked[SIZE];

void bz_internal_error(int code) {
    printf("internal error %d\n", code);
    abort();
}

int main(void) {
    for (int kind = 0; kind < 2; kind++) {
        unsigned size = sizeof packed, back = SIZE;
        if (kind == 0)
            fill((unsigned char *)data, SIZE, 2);
        else
            memset(data, 'a', SIZE - 77);
        expect(BZ2_bzBuffToBuffCompress(packed, &size, data, SIZE, 1, 0, 30) == BZ_OK, "compress");
        print("compressed", packed, size);
        for (int is_small = 0; is_small < 2; is_small++) {
            back = SIZE;
            int status = BZ2_bzBuffToBuffDecompress(unpacked, &back, packed, size, is_small, 0);
            expect(status == BZ_OK && back == SIZE, "decompress");
            expect(memcmp(data, unpacked, SIZE) == 0, "the same data");
        }
        packed[size / 2] ^= 1;
        back = SIZE;
        printf("a changed bit: %d\n",
               BZ2_bzBuffToBuffDecompress(unpacked, &back, packed, size, 0, 0));
    }
    return 0;
}
