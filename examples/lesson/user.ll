@state = internal global i32 0

declare i32 @next()

define i32 @main() {
  %first = call i32 @next()
  %second = call i32 @next()
  %mine = load i32, ptr @state
  %status = add i32 %second, %mine
  ret i32 %status
}
