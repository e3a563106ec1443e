@primes = constant [4 x i32] [i32 2, i32 3, i32 5, i32 7]

define i32 @main() {
  %best = alloca i32
  store i32 0, ptr %best
  %place = getelementptr [4 x i32], ptr @primes, i64 0, i64 3
  %last = load i32, ptr %place
  store i32 %last, ptr %best
  %now = load i32, ptr %best
  ret i32 %now
}
