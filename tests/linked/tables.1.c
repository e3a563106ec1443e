// Tables that are declared without their lengths.
#include <stdio.h>
extern const int primes[];
extern const unsigned char weights[];
extern const char *const words[];
extern int prime_count;
int main(void) {
    int sum = 0;
    for (int i = 0; i < prime_count; i++) sum += primes[i] * weights[i];
    for (int i = 0; words[i]; i++) printf("%s ", words[i]);
    printf("%d\n", sum);
    return sum % 256;
}
