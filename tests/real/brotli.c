/* Decompresses a file of the library's own tests, from standard input, in pieces. */
#include "driver.h"
#include <brotli/decode.h>

int main(void) {
    static unsigned char packed[100000], unpacked[1 << 20];
    size_t size = 0;
    for (int byte = getchar(); byte != EOF && size < sizeof packed; byte = getchar())
        packed[size++] = (unsigned char)byte;
    print("compressed", packed, size);
    BrotliDecoderState *state = BrotliDecoderCreateInstance(NULL, NULL, NULL);
    const unsigned char *next = packed;
    unsigned char *out = unpacked;
    size_t room = sizeof unpacked, total = 0;
    BrotliDecoderResult result = BROTLI_DECODER_RESULT_NEEDS_MORE_INPUT;
    while (size > 0 && result == BROTLI_DECODER_RESULT_NEEDS_MORE_INPUT) {
        size_t piece = size < 50 ? size : 50;
        size -= piece;
        result = BrotliDecoderDecompressStream(state, &piece, &next, &room, &out, &total);
        expect(piece == 0 || result == BROTLI_DECODER_RESULT_SUCCESS, "a piece is read");
    }
    BrotliDecoderDestroyInstance(state);
    printf("result %d\n", (int)result);
    print("decompressed", unpacked, total);
    return 0;
}
