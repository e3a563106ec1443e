// C++: inline functions, an inline variable and templates, which each part that uses them defines.
extern "C" int printf(const char *, ...);
template <int N> struct Times {
    static int calls;
    static int of(int n) { calls++; return n * N; }
};
template <int N> int Times<N>::calls = 0;
inline int shared = 40;
__attribute__((noinline)) inline int added(int n) { static int sum; return sum += n; }
extern template struct Times<7>;
int elsewhere(int n);
int main() {
    shared += Times<3>::of(2) + Times<7>::of(1);
    int sum = added(5);
    int other = elsewhere(sum);
    printf("%d %d %d %d\n", shared, other, Times<3>::calls, Times<7>::calls);
    return added(1);
}
