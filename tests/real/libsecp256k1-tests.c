/* The library's own tests at a count of 1: those that end within two milliseconds natively. Its
   generator of random numbers has a fixed seed here, since it would read a file and the time. */
#include "driver.h"
#include <time.h>
#define fopen(name, mode) NULL
#define fread(target, size, count, file) 0
#define fclose(file) ((void)0)
#define time(target) 1
#define setbuf(stream, room) ((void)0)
#define sscanf(text, pattern, target) 0
#define main every_test
#include "src/tests.c"
#undef main

typedef void test(void);

static test *const tests[] = {
    run_selftest_tests, run_rand_int, run_int128_tests, run_ctz_tests,
    run_sha256_known_output_tests, run_sha256_counter_tests, run_hmac_sha256_tests,
    run_rfc6979_hmac_sha256_tests, run_tagged_sha256_tests, run_scalar_tests, run_field_half,
    run_field_misc, run_field_convert, run_sqr, run_sqrt, run_gej, run_group_decompress, run_wnaf,
    run_ecmult_gen_blind, run_endomorphism_tests, run_eckey_edge_case_test, run_eckey_negate_test,
    run_ecdh_tests, run_pubkey_comparison, run_random_pubkeys, run_ecdsa_der_parse,
    run_ecdsa_sign_verify, run_secp256k1_memczero_test, run_secp256k1_byteorder_tests,
    run_cmov_tests,
};

int main(void) {
    count = 1;
    secp256k1_testrand_init("00");
    run_context_tests(0);
    run_scratch_tests();
    ctx = secp256k1_context_create(SECP256K1_CONTEXT_NONE);
    for (unsigned i = 0; i < sizeof tests / sizeof *tests; i++) {
        tests[i]();
        printf("test %u: %08x\n", i, (unsigned)secp256k1_testrand_bits(32));
    }
    secp256k1_context_destroy(ctx);
    printf("no problems found\n");
    return 0;
}
