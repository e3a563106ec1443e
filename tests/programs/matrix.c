// Arrays of arrays and 64-bit products modulo a prime.
#include <stdint.h>

enum { N = 3 };
static const uint64_t prime = 1000000007;

static void multiply(uint64_t out[N][N], uint64_t a[N][N], uint64_t b[N][N]) {
    uint64_t sum[N][N];
    for (int i = 0; i < N; i++)
        for (int j = 0; j < N; j++) {
            sum[i][j] = 0;
            for (int k = 0; k < N; k++)
                sum[i][j] = (sum[i][j] + a[i][k] * b[k][j]) % prime;
        }
    for (int i = 0; i < N; i++)
        for (int j = 0; j < N; j++)
            out[i][j] = sum[i][j];
}

int main(void) {
    uint64_t base[N][N] = {{1, 1, 0}, {0, 1, 1}, {1, 0, 1}}, power[N][N] = {{1, 0, 0}, {0, 1, 0}, {0, 0, 1}};
    for (uint64_t n = 1000; n; n >>= 1) {
        if (n & 1)
            multiply(power, power, base);
        multiply(base, base, base);
    }
    return (int)((power[0][0] ^ power[1][2] ^ (power[2][1] >> 8)) & 255);
}
