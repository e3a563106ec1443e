/* Boxes, signatures, hashes and streams by the portable code of the library. */
#include "driver.h"
#include <sodium/crypto_aead_chacha20poly1305.h>
#include <sodium/crypto_auth_hmacsha256.h>
#include <sodium/crypto_generichash_blake2b.h>
#include <sodium/crypto_hash_sha512.h>
#include <sodium/crypto_scalarmult_curve25519.h>
#include <sodium/crypto_shorthash_siphash24.h>
#include <sodium/crypto_sign_ed25519.h>
#include <sodium/crypto_stream_xsalsa20.h>

#define SIZE 1500
static unsigned char data[SIZE], room[SIZE + 100], back[SIZE], key[64], seed[32];

/* These are of files that are left out: the keys here are given, not random. */
void randombytes_buf(void *target, size_t size) {
    memset(target, 0, size);
}

void sodium_misuse(void) {
    abort();
}

static void sign(void) {
    unsigned char public[32], private[64], signature[64];
    crypto_sign_ed25519_seed_keypair(public, private, seed);
    crypto_sign_ed25519_detached(signature, NULL, data, 200, private);
    print("ed25519", signature, 64);
    expect(crypto_sign_ed25519_verify_detached(signature, data, 200, public) == 0, "verify");
    signature[1] ^= 2;
    expect(crypto_sign_ed25519_verify_detached(signature, data, 200, public) != 0, "refuse");
}

static void seal(void) {
    unsigned long long size;
    crypto_aead_chacha20poly1305_ietf_encrypt(room, &size, data, SIZE, key, 9, NULL, seed, key);
    print("chacha20poly1305", room, size);
    expect(crypto_aead_chacha20poly1305_ietf_decrypt(back, NULL, NULL, room, size, key, 9, seed,
                                                     key) == 0, "open");
    expect(memcmp(back, data, SIZE) == 0, "the same data");
}

int main(void) {
    fill(data, SIZE, 8);
    fill(key, sizeof key, 9);
    fill(seed, sizeof seed, 10);
    sign();
    seal();
    crypto_generichash_blake2b(room, 40, data, SIZE, key, 64);
    print("blake2b", room, 40);
    crypto_hash_sha512(room, data, SIZE);
    print("sha512", room, 64);
    crypto_auth_hmacsha256(room, data, SIZE, key);
    print("hmacsha256", room, 32);
    crypto_shorthash_siphash24(room, data, SIZE, key);
    print("siphash24", room, 8);
    crypto_stream_xsalsa20(room, SIZE, seed, key);
    print("xsalsa20", room, SIZE);
    expect(crypto_scalarmult_curve25519_base(room, seed) == 0, "base");
    expect(crypto_scalarmult_curve25519(room, key, room) == 0, "scalarmult");
    print("curve25519", room, 32);
    return 0;
}
