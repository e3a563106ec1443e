@line = constant [19 x i8] c"%d times %d is %d\0A\00"

declare i32 @printf(ptr, ...)

define i32 @show(i32 %a, i32 %b) {
  %product = mul i32 %a, %b
  %length = call i32 (ptr, ...) @printf(ptr @line, i32 %a, i32 %b, i32 %product)
  ret i32 %length
}

define i32 @main() {
  %one = call i32 @show(i32 6, i32 7)
  %two = call i32 @show(i32 -1, i32 10)
  ret i32 %two
}
