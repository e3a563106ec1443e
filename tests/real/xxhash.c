/* Hashes of buffers of many lengths, in one go and in pieces. */
#include "driver.h"
#include <xxhash.h>

#define SIZE 3000
static unsigned char data[SIZE];

static unsigned long in_pieces(size_t size) {
    XXH3_state_t *state = XXH3_createState();
    XXH3_64bits_reset_withSeed(state, 5);
    for (size_t place = 0; place < size; place += 100)
        XXH3_64bits_update(state, data + place, size - place < 100 ? size - place : 100);
    unsigned long hash = XXH3_64bits_digest(state);
    XXH3_freeState(state);
    return hash;
}

int main(void) {
    fill(data, SIZE, 4);
    for (size_t size = 0; size <= SIZE; size = size < 40 ? size + 1 : size + 97) {
        XXH128_hash_t wide = XXH3_128bits_withSeed(data, size, 6);
        printf("%lu %x %lx %lx %lx%016lx\n", (unsigned long)size, XXH32(data, size, 7),
               (unsigned long)XXH64(data, size, 8), (unsigned long)XXH3_64bits(data, size),
               (unsigned long)wide.high64, (unsigned long)wide.low64);
        expect(in_pieces(size) == XXH3_64bits_withSeed(data, size, 5), "the same in pieces");
    }
    return 0;
}
