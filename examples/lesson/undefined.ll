@table = constant [2 x i32] [i32 10, i32 20]

define i32 @main(i32 %count, ptr %words) {
  switch i32 %count, label %divide [
    i32 1, label %index
    i32 2, label %overflow
  ]
index:
  %place = getelementptr i32, ptr @table, i64 2
  %third = load i32, ptr %place
  ret i32 %third
overflow:
  %large = add nsw i32 2147483647, %count
  %negative = icmp slt i32 %large, 0
  br i1 %negative, label %index, label %divide
divide:
  %zero = sub i32 %count, %count
  %quotient = sdiv i32 %count, %zero
  ret i32 %quotient
}
