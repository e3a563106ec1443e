define i64 @power(i64 %base, i64 %times) {
  %end = icmp eq i64 %times, 0
  br i1 %end, label %one, label %more
one:
  ret i64 1
more:
  %fewer = sub i64 %times, 1
  %rest = call i64 @power(i64 %base, i64 %fewer)
  %result = mul i64 %base, %rest
  ret i64 %result
}

define i32 @main() {
  %p = call i64 @power(i64 3, i64 5)
  %status = trunc i64 %p to i32
  ret i32 %status
}
