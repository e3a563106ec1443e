%point = type { i8, i32 }

@corner = global %point { i8 1, i32 20 }

define i32 @main() {
  %whole = load %point, ptr @corner
  %y = extractvalue %point %whole, 1
  %moved = insertvalue %point %whole, i32 30, 1
  store %point %moved, ptr @corner
  %place = getelementptr %point, ptr @corner, i64 0, i32 1
  %now = load i32, ptr %place
  %both = add i32 %y, %now
  ret i32 %both
}
