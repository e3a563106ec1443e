const int primes[] = {2, 3, 5, 7, 11, 13};
int prime_count = sizeof primes / sizeof *primes;
