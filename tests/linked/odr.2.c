template <int N> struct Times {
    static int calls;
    static int of(int n) { calls++; return n * N; }
};
template <int N> int Times<N>::calls = 0;
inline int shared = 40;
__attribute__((noinline)) inline int added(int n) { static int sum; return sum += n; }
template struct Times<7>;
int elsewhere(int n) { return Times<3>::of(added(n)) + Times<7>::of(shared); }
