/* Signs and verifies with ECDSA and Schnorr, recovers a key, shares a secret. */
#include "driver.h"
#include <secp256k1.h>
#include <secp256k1_ecdh.h>
#include <secp256k1_recovery.h>
#include <secp256k1_schnorrsig.h>

static secp256k1_context *context;
static unsigned char secret[32], message[32], room[72];

static void ecdsa(const secp256k1_pubkey *key) {
    secp256k1_ecdsa_signature signature;
    size_t size = sizeof room;
    expect(secp256k1_ecdsa_sign(context, &signature, message, secret, NULL, NULL), "sign");
    expect(secp256k1_ecdsa_verify(context, &signature, message, key), "verify");
    secp256k1_ecdsa_signature_serialize_der(context, room, &size, &signature);
    print("ecdsa", room, size);
    message[3] ^= 1;
    expect(!secp256k1_ecdsa_verify(context, &signature, message, key), "verify another message");
    message[3] ^= 1;
}

static void recovery(const secp256k1_pubkey *key) {
    secp256k1_ecdsa_recoverable_signature signature;
    secp256k1_pubkey found;
    expect(secp256k1_ecdsa_sign_recoverable(context, &signature, message, secret, NULL, NULL) &&
           secp256k1_ecdsa_recover(context, &found, &signature, message) &&
           secp256k1_ec_pubkey_cmp(context, &found, key) == 0, "recover");
}

static void schnorr(void) {
    secp256k1_keypair pair;
    secp256k1_xonly_pubkey key;
    unsigned char signature[64];
    expect(secp256k1_keypair_create(context, &pair, secret), "keypair");
    expect(secp256k1_keypair_xonly_pub(context, &key, NULL, &pair), "xonly");
    expect(secp256k1_schnorrsig_sign32(context, signature, message, &pair, NULL), "schnorr sign");
    expect(secp256k1_schnorrsig_verify(context, signature, message, 32, &key), "schnorr verify");
    print("schnorr", signature, 64);
}

int main(void) {
    secp256k1_pubkey key;
    size_t size = 33;
    context = secp256k1_context_create(SECP256K1_CONTEXT_NONE);
    for (unsigned round = 0; round < 2; round++) {
        fill(secret, 32, 6 + round);
        fill(message, 32, 9 + round);
        expect(secp256k1_context_randomize(context, message), "randomize");
        expect(secp256k1_ec_pubkey_create(context, &key, secret), "create");
        secp256k1_ec_pubkey_serialize(context, room, &size, &key, SECP256K1_EC_COMPRESSED);
        print("key", room, size);
        ecdsa(&key);
        recovery(&key);
        schnorr();
        expect(secp256k1_ecdh(context, room, &key, secret, NULL, NULL), "ecdh");
        print("ecdh", room, 32);
    }
    secp256k1_context_destroy(context);
    return 0;
}
