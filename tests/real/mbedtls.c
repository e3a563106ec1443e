/* The library's own self-tests of ciphers, hashes, big numbers, curves and RSA. */
#include "driver.h"
#include <mbedtls/aes.h>
#include <mbedtls/aria.h>
#include <mbedtls/base64.h>
#include <mbedtls/bignum.h>
#include <mbedtls/camellia.h>
#include <mbedtls/ccm.h>
#include <mbedtls/chachapoly.h>
#include <mbedtls/cmac.h>
#include <mbedtls/ctr_drbg.h>
#include <mbedtls/des.h>
#include <mbedtls/gcm.h>
#include <mbedtls/hmac_drbg.h>
#include <mbedtls/md5.h>
#include <mbedtls/ripemd160.h>
#include <mbedtls/rsa.h>
#include <mbedtls/sha1.h>
#include <mbedtls/sha256.h>
#include <mbedtls/xtea.h>

typedef int test(int verbose);

static test *const tests[] = {
    mbedtls_aes_self_test, mbedtls_aria_self_test, mbedtls_base64_self_test,
    mbedtls_camellia_self_test, mbedtls_ccm_self_test, mbedtls_chacha20_self_test,
    mbedtls_poly1305_self_test, mbedtls_chachapoly_self_test, mbedtls_cmac_self_test,
    mbedtls_ctr_drbg_self_test, mbedtls_gcm_self_test, mbedtls_hmac_drbg_self_test,
    mbedtls_md5_self_test, mbedtls_ripemd160_self_test, mbedtls_xtea_self_test,
    mbedtls_mpi_self_test, mbedtls_rsa_self_test,
};

int main(void) {
    unsigned char data[3000], hash[32];
    for (unsigned i = 0; i < sizeof tests / sizeof *tests; i++)
        expect(tests[i](1) == 0, "a self-test");
    fill(data, sizeof data, 7);
    mbedtls_sha1_ret(data, sizeof data, hash);
    print("sha1", hash, 20);
    mbedtls_sha256_ret(data, sizeof data, hash, 0);
    print("sha256", hash, 32);
    return 0;
}
